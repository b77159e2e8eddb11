"""Writes FILE to a pipe in pieces of SIZE bytes, each when the one before it was read.

in_pieces.py SIZE FILE: it ends early where the reader of the pipe does.
"""
import array
import fcntl
import select
import sys
import termios
import time

OUT = 1


def unread():
    """Returns how many bytes of the pipe wait to be read."""
    count = array.array("i", [0])
    fcntl.ioctl(OUT, termios.FIONREAD, count)
    return count[0]


def main():
    size = int(sys.argv[1])
    # Without an event that is asked for, what comes is only that the reader is gone.
    reader_is_gone = select.poll()
    reader_is_gone.register(OUT, 0)
    with open(sys.argv[2], "rb") as file, open(OUT, "wb", buffering=0) as pipe:
        try:
            while piece := file.read(size):
                while unread() and not reader_is_gone.poll(0):
                    time.sleep(0)
                pipe.write(piece)
        except BrokenPipeError:
            pass


if __name__ == "__main__":
    main()
