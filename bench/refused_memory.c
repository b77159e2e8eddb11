/* Counts the allocations of a program, and refuses those of them whose numbers, from 1 on, lie from REFUSE_FROM to REFUSE_TO.
   At the end it writes how many were counted and how many refused to the descriptor REFUSE_NOTE. Loaded before libc. */
#include <errno.h>
#include <stddef.h>
#include <stdio.h>
#include <stdlib.h>
#include <unistd.h>

void *__libc_malloc(size_t size);
void *__libc_calloc(size_t count, size_t size);
void *__libc_realloc(void *old, size_t size);

static unsigned long counted, refused;

static unsigned long number_of(const char *name)
{
    const char *text = getenv(name);
    return text ? strtoul(text, NULL, 10) : 0;
}

static int is_refused(void)
{
    counted++;
    if (counted < number_of("REFUSE_FROM") || number_of("REFUSE_TO") < counted)
        return 0;
    refused++;
    errno = ENOMEM;
    return 1;
}

void *malloc(size_t size)
{
    return is_refused() ? NULL : __libc_malloc(size);
}

void *calloc(size_t count, size_t size)
{
    return is_refused() ? NULL : __libc_calloc(count, size);
}

void *realloc(void *old, size_t size)
{
    return is_refused() ? NULL : __libc_realloc(old, size);
}

__attribute__((destructor)) static void tell(void)
{
    char note[64];
    int length = snprintf(note, sizeof note, "%lu %lu", counted, refused);
    if (write((int)number_of("REFUSE_NOTE"), note, (size_t)length) < 0)
        _exit(125);
}
