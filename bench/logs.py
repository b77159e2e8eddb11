#!/usr/bin/env python3
"""Measures `otio media` on logs (Avid Log Exchange) of 32 MiB.

    bench/logs.py [--runs R]

Six logs of at most 33 554 432 bytes: many rows of 50 tapes; rows of some 300 000 tapes; short rows; each row its own tape; two million columns;
blank lines alone, of which the first line after them is told. Times are medians of R runs (5), output to /dev/null, with the peak memory. The
program is OTIO of the environment, or the one that `./otio` builds.
"""
import argparse
import os
import tempfile

from json_layout import LIMIT, PROGRAM, megabytes, milliseconds, require, run, shown

HEAD = 'Heading\nFIELD_DELIM\tTABS\nVIDEO_FORMAT\t1080\nFPS\t24\n\nColumn\n{}\n\nData\n'
FIELDS = 'Name\tTracks\tStart\tEnd\tTape\tScene\tTake\tComments'


def label(frame):
    frame %= 24 * 86400
    second = frame // 24
    return f'{second // 3600:02d}:{second // 60 % 60:02d}:{second % 60:02d}:{frame % 24:02d}'


def filled(head, row):
    """The head, and rows by their number as long as there is room."""
    parts, size, index = [head], len(head), 0
    while True:
        text = row(index)
        if size + len(text) > LIMIT:
            return ''.join(parts), index
        parts.append(text)
        size, index = size + len(text), index + 1


def shot(tapes):
    """A row of a camera report, of so many tapes in turn."""
    def row(index):
        start = index * 53 % 2_000_000
        comment = 'the ferry leaves the quay in the rain'
        return f'shot {index}\tVA1A2\t{label(start)}\t{label(start + 48)}\tT{index % tapes:06d}\t{index % 120}\t{index % 9}\t{comment}\n'
    return row


def short(tapes):
    """A row of the three columns alone."""
    def row(index):
        start = index * 53 % 2_000_000
        return f'T{index % tapes}\t{label(start)}\t{label(start + 48)}\n'
    return row


def logs():
    """Names, logs and numbers of rows."""
    yield 'few tapes', *filled(HEAD.format(FIELDS), shot(50))
    yield 'many tapes', *filled(HEAD.format(FIELDS), shot(300_000))
    yield 'short rows', *filled(HEAD.format('Tape\tStart\tEnd'), short(300_000))
    yield 'each row its own tape', *filled(HEAD.format('Tape\tStart\tEnd'), short(LIMIT))
    columns = HEAD.format('c\t' * 2_000_000 + 'Tape\tStart\tEnd')
    yield 'two million columns', *filled(columns, lambda index: '\t' * 2_000_000 + short(50)(index))
    yield 'blank lines', '\n' * LIMIT, 0


def main():
    words = argparse.ArgumentParser()
    words.add_argument('--runs', type=int, default=5)
    runs = words.parse_args().runs
    otio = os.path.abspath(os.environ.get('OTIO', PROGRAM))
    require(otio)
    with tempfile.TemporaryDirectory() as folder:
        path = os.path.join(folder, 'x.ale')
        print('| Log | rows | MB | status | ms | peak MB |\n|---|---|---|---|---|---|')
        for name, text, rows in logs():
            with open(path, 'w') as f:
                f.write(text)
            asked = [otio, 'media', 'x.ale']
            status, wall, peak = run(asked, folder), milliseconds(asked, folder, runs), megabytes(asked, folder)
            print(f'| {name} | {rows} | {len(text) / 1e6:.1f} | {status} | {wall:.0f} | {shown(peak)} |', flush=True)


if __name__ == '__main__':
    main()
