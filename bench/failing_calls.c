/* Counts the calls open, read, write and close of a program, and fails those of them whose numbers, from 1 on, lie from FAIL_FROM to FAIL_TO,
   with the error FAIL_WITH. Reads and writes take at most FAIL_PIECE bytes where that isn't 0. At the end it writes how many were counted and how
   many failed to the descriptor FAIL_NOTE. Loaded before libc. */
#define _GNU_SOURCE
#include <errno.h>
#include <fcntl.h>
#include <stdarg.h>
#include <stdio.h>
#include <stdlib.h>
#include <sys/syscall.h>
#include <unistd.h>

static unsigned long counted, failed;

static unsigned long number_of(const char *name)
{
    const char *text = getenv(name);
    return text ? strtoul(text, NULL, 10) : 0;
}

static int is_failed(void)
{
    counted++;
    if (counted < number_of("FAIL_FROM") || number_of("FAIL_TO") < counted)
        return 0;
    failed++;
    errno = (int)number_of("FAIL_WITH");
    return 1;
}

static size_t piece_of(size_t size)
{
    size_t most = number_of("FAIL_PIECE");
    return most && most < size ? most : size;
}

int open(const char *name, int flags, ...)
{
    va_list more;
    va_start(more, flags);
    int mode = va_arg(more, int);
    va_end(more);
    return is_failed() ? -1 : (int)syscall(SYS_openat, AT_FDCWD, name, flags, mode);
}

ssize_t read(int file, void *bytes, size_t size)
{
    return is_failed() ? -1 : syscall(SYS_read, file, bytes, piece_of(size));
}

ssize_t write(int file, const void *bytes, size_t size)
{
    return is_failed() ? -1 : syscall(SYS_write, file, bytes, piece_of(size));
}

int close(int file)
{
    int is_due = is_failed(), error = errno, ended = (int)syscall(SYS_close, file);
    errno = is_due ? error : errno;
    return is_due ? -1 : ended;
}

__attribute__((destructor)) static void tell(void)
{
    char note[64];
    int length = snprintf(note, sizeof note, "%lu %lu", counted, failed);
    syscall(SYS_write, (int)number_of("FAIL_NOTE"), note, (size_t)length);
}
