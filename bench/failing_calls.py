#!/usr/bin/env python3
"""Fails each call of the system that the program makes, in turn, and holds how it ends.

    bench/failing_calls.py [--only WORD]

The calls are open, read, write and close, counted together by `failing_calls.c`, which gcc compiles for the run. Each command line of
`refused_memory.py` runs once without a fault, which is the whole answer, and then in these ways:

    fault, one        the k-th call fails with EIO, for each k that is reached
    fault, all        the k-th call and all behind it fail with EIO
    signal, one       the k-th call fails with EINTR, as where a signal interrupts it
    signal, many      the k-th call and the 4999 behind it fail with EINTR
    bytes             each read and write takes one byte

A run has to give the whole answer; or status 3 with `otio: NAME: read failed` of a file of the line, and nothing sent; or status 4 with
`otio: output failed` and a prefix of the output; where messages fail, a prefix of the message. After one signal and in single bytes it has to give the
whole answer. No file that is read may change. The status is 1 where a run ended otherwise. The program is OTIO of the environment, or the one that `./otio --prove` builds.
"""
import argparse
import errno
import os
import subprocess
import sys
import tempfile

from json_layout import HERE, PROGRAM, require
from refused_memory import ALL, LINES, OUT, contents, some_files

MANY = 5000  # signals on end; a call that opens a file is made again without a bound, so not all calls behind the k-th fail so
WAYS = [('fault, one', errno.EIO, 1), ('fault, all', errno.EIO, ALL), ('signal, one', errno.EINTR, 1), ('signal, many', errno.EINTR, MANY)]
FAILED = b'otio: output failed\n'


def run_once(words, folder, library, fault=0, first=0, last=0, piece=0):
    """Status, output, message and written file (none where there is none), and how many calls were counted and how many failed; the counts are
    none where the program didn't come to its end."""
    path = os.path.join(folder, OUT)
    if os.path.exists(path):
        os.remove(path)
    reading, writing = os.pipe()
    setting = dict(os.environ, LD_PRELOAD=library, FAIL_WITH=str(fault), FAIL_FROM=str(first), FAIL_TO=str(last), FAIL_PIECE=str(piece),
                   FAIL_NOTE=str(writing))
    ended = subprocess.run(words, cwd=folder, env=setting, pass_fds=[writing], stdin=subprocess.DEVNULL, capture_output=True)
    os.close(writing)
    note = os.read(reading, 64).split()
    os.close(reading)
    written = None
    if os.path.exists(path):
        with open(path, 'rb') as file:
            written = file.read()
    counts = (int(note[0]), int(note[1])) if len(note) == 2 else None
    return (ended.returncode, ended.stdout, ended.stderr, written), counts


def kind_of(words, answer, whole):
    """Which of the endings that may be an answer has; none where it has none of them. A message may be cut off, as where messages fail."""
    status, sent, told, written = answer
    if answer == whole:
        return 'whole'
    if status == 3 and sent == b'' and written is None and any(f'otio: {name}: read failed\n'.encode().startswith(told) for name in words[2:]):
        return 'read failed'
    if status == 4 and whole[0] == 0 and FAILED.startswith(told):
        if whole[1].startswith(sent) and (written is None or (whole[3] or b'').startswith(written)):
            return 'output failed'
    if status == whole[0] != 0 and sent == b'' and written is None and whole[2].startswith(told):
        return 'message cut off'
    return None


def fail_each(words, folder, library, whole, way):
    """How many runs ended in each way that may be, and what is told of the others, for each k that is reached."""
    name, fault, count = way
    ends, others = {}, []
    for k in range(1, ALL):
        answer, counts = run_once(words, folder, library, fault, k, k + count - 1)
        if counts is not None and counts[1] == 0:
            return ends, others
        kind = kind_of(words, answer, whole) if counts is not None else None
        if kind is None or (name == 'signal, one' and kind != 'whole'):
            others.append(f'{name}, k = {k}: {answer}, counts {counts}')
        ends[kind] = ends.get(kind, 0) + 1


def main():
    asked = argparse.ArgumentParser()
    asked.add_argument('--only', default='', help='command lines that hold this alone')
    only = asked.parse_args().only
    otio = os.path.abspath(os.environ.get('OTIO', PROGRAM))
    require(otio)
    sums, others, calls, tried = {way[0]: {} for way in WAYS}, [], 0, 0
    with tempfile.TemporaryDirectory() as folder:
        library = os.path.join(folder, 'failing_calls.so')
        subprocess.run(['gcc', '-shared', '-fPIC', '-O1', '-o', library, os.path.join(HERE, 'failing_calls.c')], check=True)
        for name, text in some_files().items():
            with open(os.path.join(folder, name), 'w') as file:
                file.write(text)
        files = contents(folder, some_files())
        for line in [line for line in LINES if only in line]:
            words = [otio, *line.split()]
            whole, counts = run_once(words, folder, library)
            tried, calls = tried + 1, calls + counts[0]
            if run_once(words, folder, library, piece=1)[0] != whole:
                others.append(f'otio {line}: another answer in single bytes')
            for way in WAYS:
                ends, more = fail_each(words, folder, library, whole, way)
                for kind, count in ends.items():
                    sums[way[0]][kind] = sums[way[0]].get(kind, 0) + count
                others += [f'otio {line}: {other}' for other in more]
            if contents(folder, some_files()) != files:
                others.append(f'otio {line}: a file that was read has changed')
    kinds = ['whole', 'read failed', 'output failed', 'message cut off']
    print(f'{tried} command lines, {calls} calls of the runs without a fault.\n')
    print('| way | runs | whole | read failed | output failed | message cut off |\n|---|---|---|---|---|---|')
    for name, ends in sums.items():
        print(f'| {name} | {sum(ends.values())} | ' + ' | '.join(str(ends.get(kind, 0)) for kind in kinds) + ' |')
    print(f'| bytes | {tried} | {tried} | | | |')
    print(f'\n{tried + sum(sum(ends.values()) for ends in sums.values())} runs, {len(others)} of them ended otherwise.')
    for other in others:
        print(other[:400])
    sys.exit(1 if others else 0)


if __name__ == '__main__':
    main()
