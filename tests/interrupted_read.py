"""Runs a command whose standard input is interrupted where it waits for more bytes.

interrupted_read.py FILE COMMAND..: standard input is a socket that takes the first half of FILE,
and the rest after the command was stopped and continued three times while it waited. Its reads have
a time limit, so that they end with EINTR there, as signal(7) says of stop signals. The status is
that of the command.
"""
import array
import fcntl
import os
import signal
import socket
import struct
import subprocess
import sys
import termios
import time

INTERRUPTIONS = 3
SECONDS_OF_A_READ = 120


def waits(process, its_end):
    """Says whether the process waits for bytes: all were taken and it sleeps; or has ended."""
    if process.poll() is not None:
        return True
    unread = array.array("i", [1])
    fcntl.ioctl(its_end, termios.FIONREAD, unread)
    with open(f"/proc/{process.pid}/stat", encoding="utf-8", errors="replace") as file:
        state = file.read().rpartition(")")[2].split()[0]
    return unread[0] == 0 and state == "S"


def wait_for_read(process, its_end):
    last = time.monotonic() + SECONDS_OF_A_READ
    while not waits(process, its_end):
        if time.monotonic() > last:
            process.kill()
            sys.exit("interrupted_read.py: the command doesn't read")
        time.sleep(0.01)


def interrupt(process):
    """Stops the process and lets it go on, unless it has ended."""
    if process.poll() is None:
        os.kill(process.pid, signal.SIGSTOP)
        os.waitid(os.P_PID, process.pid, os.WSTOPPED | os.WEXITED | os.WNOWAIT)
        os.kill(process.pid, signal.SIGCONT)


def main():
    with open(sys.argv[1], "rb") as file:
        text = file.read()
    our_end, its_end = socket.socketpair()
    limit = struct.pack("ll", SECONDS_OF_A_READ, 0)
    its_end.setsockopt(socket.SOL_SOCKET, socket.SO_RCVTIMEO, limit)
    process = subprocess.Popen(sys.argv[2:], stdin=its_end)
    our_end.sendall(text[: len(text) // 2])
    for _ in range(INTERRUPTIONS):
        wait_for_read(process, its_end)
        interrupt(process)
    wait_for_read(process, its_end)
    try:
        our_end.sendall(text[len(text) // 2 :])
    except BrokenPipeError:
        pass
    our_end.shutdown(socket.SHUT_WR)
    return process.wait()


if __name__ == "__main__":
    sys.exit(main())
