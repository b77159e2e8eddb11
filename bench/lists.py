#!/usr/bin/env python3
"""Measures `otio convert --to edl` on a list of 999 events, beside the same on an empty list and beside /bin/true.

    bench/lists.py [RUNS]
    bench/lists.py --large [RUNS]

It prints medians of wall time in milliseconds and their ratios in one run, and, where strace is there, the calls that read
the list and write the output. With `--large` it measures the greatest legal lists, of 32 MiB, beside `wc -l` and `cat`, with
peak memory: events in the order of the record, the same shuffled, and one event behind a long comment and behind many
short ones; a plain reader in C++ (peers/edl_plain.cc) stands beside it, where g++ is there. A list of so many events is read and judged, and then refused as one that has too many to be written.
"""
import os
import random
import re
import shutil
import statistics
import subprocess
import sys
import tempfile
import time

HERE = os.path.dirname(os.path.abspath(__file__))
PROGRAM = os.environ.get('OTIO') or os.path.join(HERE, '..', 'crates', 'otio_main', 'out', 'otio_main')
EVENTS = 999
FRAMES = 24


def label(n):
    s = n // 24
    return f'{s // 3600:02d}:{s // 60 % 60:02d}:{s % 60:02d}:{n % 24:02d}'


def list_text():
    lines = ['TITLE: BENCH', 'FCM: NON-DROP FRAME']
    for i in range(EVENTS):
        source, record = 1000 + 7 * i, 86400 + FRAMES * i
        lines.append(f'{i + 1} TAPE{i % 10} V C {label(source)} {label(source + FRAMES)} {label(record)} {label(record + FRAMES)}')
    return '\n'.join(lines) + '\n'


def median(words, folder, runs):
    times = []
    for _ in range(runs):
        begun = time.perf_counter()
        subprocess.run(words, cwd=folder, stdout=subprocess.DEVNULL, check=True)
        times.append(time.perf_counter() - begun)
    return statistics.median(times) * 1000


def event_lines(count, frames):
    return [f'1 T V C {label(0)} {label(frames)} {label(frames * i)} {label(frames * (i + 1))}\n' for i in range(count)]


def large_lists():
    limit = 33_554_432
    width = len(event_lines(1, 3)[0])
    lines = event_lines(limit // width, 3)
    yield 'events in order', ''.join(lines)
    random.Random(7).shuffle(lines)
    yield 'events shuffled', ''.join(lines)
    event = event_lines(1, 3)[0]
    yield 'one long comment', '*' * (limit - len(event) - 1) + '\n' + event
    short = '* A COMMENT\n'
    yield 'short comments', short * ((limit - len(event)) // len(short)) + event


def timed(words, folder):
    """Wall time in milliseconds, peak memory in megabytes, status."""
    begun = time.perf_counter()
    child = subprocess.Popen(words, cwd=folder, stdout=subprocess.DEVNULL, stderr=subprocess.DEVNULL)
    _, status, usage = os.wait4(child.pid, 0)
    child.returncode = os.waitstatus_to_exitcode(status)
    return (time.perf_counter() - begun) * 1000, usage.ru_maxrss / 1000, child.returncode


def write_large(folder):
    """Writes the lists and prints the name of each, its bytes and its lines."""
    for number, (name, text) in enumerate(large_lists()):
        with open(os.path.join(folder, f'{number}.edl'), 'w') as f:
            f.write(text)
        print(f'{name}: {len(text) / 1e6:.1f} MB, {text.count(chr(10))} lines')


def plain_reader(folder):
    """The reader in C++, in a list; an empty list where it can't be built."""
    if not shutil.which('g++'):
        return []
    reader = os.path.join(folder, 'edl_plain')
    subprocess.run(['g++', '-std=c++17', '-O3', '-DNDEBUG', os.path.join(HERE, 'peers', 'edl_plain.cc'), '-o', reader], check=True)
    return [('C++', [reader])]


def large(runs):
    program = os.path.abspath(PROGRAM)
    with tempfile.TemporaryDirectory() as folder:
        peers = plain_reader(folder)
        # A process of its own, since what it holds would count as the peak memory of those that are started here.
        written = subprocess.run([sys.executable, os.path.abspath(__file__), '--write', folder], stdout=subprocess.PIPE, text=True, check=True)
        for number, title_line in enumerate(written.stdout.splitlines()):
            print(title_line)
            name = f'{number}.edl'
            programs = [('otio', [program, 'convert', '--to', 'edl', name])] + [(title, words + [name]) for title, words in peers]
            for title, words in programs + [('wc -l', ['wc', '-l', name]), ('cat', ['cat', name])]:
                rows = [timed(words, folder) for _ in range(runs)]
                ms = statistics.median(row[0] for row in rows)
                print(f'  {title:6} {ms:9.1f} ms {max(row[1] for row in rows):8.1f} MB   status {rows[0][2]}')


def main():
    if sys.argv[1:2] == ['--write']:
        write_large(sys.argv[2])
    elif '--large' in sys.argv[1:]:
        rest = [word for word in sys.argv[1:] if word != '--large']
        large(int(rest[0]) if rest else 3)
    else:
        small()


def small():
    runs = int(sys.argv[1]) if len(sys.argv) > 1 else 200
    program = os.path.abspath(PROGRAM)
    with tempfile.TemporaryDirectory() as folder:
        with open(os.path.join(folder, 'big.edl'), 'w') as f:
            f.write(list_text())
        with open(os.path.join(folder, 'empty.edl'), 'w') as f:
            f.write('TITLE: EMPTY\n')
        start = median(['/bin/true'], folder, runs)
        empty = median([program, 'convert', '--to', 'edl', 'empty.edl'], folder, runs)
        big = median([program, 'convert', '--to', 'edl', 'big.edl'], folder, runs)
        print(f'/bin/true               {start:7.2f} ms')
        print(f'otio, an empty list     {empty:7.2f} ms   {empty / start:5.2f} of /bin/true')
        print(f'otio, {EVENTS} events        {big:7.2f} ms   {big / start:5.2f} of /bin/true, {big - empty:.2f} ms above the empty list')
        if shutil.which('strace'):
            trace = subprocess.run(['strace', '-e', 'trace=read,write', program, 'convert', '--to', 'edl', 'big.edl'],
                                   cwd=folder, stdout=subprocess.DEVNULL, stderr=subprocess.PIPE, text=True).stderr
            writes = [int(n) for n in re.findall(r'^write\(1, .*= (\d+)$', trace, re.M)]
            print(f'writes: {len(writes)} calls for {sum(writes)} bytes, the largest {max(writes)}')


if __name__ == '__main__':
    main()
