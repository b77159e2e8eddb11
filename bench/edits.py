#!/usr/bin/env python3
"""Measures `otio edit` on generated timelines and scripts.

    bench/edits.py [--runs R] [--clips N,N,..] [--commands N,N,..]

A row for each kind of command, 10 000 of it on a track of 79 000 clips, and one of all kinds mixed, with and without a dissolve at each
fourth cut; those that keep the number of items on a track of 99 990; then how the time of a command grows with the clips of the track (790, 7900, 79 000) and with the commands (100, 1000, 10 000).
Beside each stands a script of one command: the reading, judging and writing alone.

Output goes to /dev/null. Times are processor times (user and system), the least of R runs (3), the two scripts in turn. The program is OTIO of
the environment, or the one that `./otio --prove` builds.
"""
import argparse
import os
import random
import resource
import subprocess
import tempfile

from frames import dissolve, timeline, track
from json_layout import PROGRAM, ratio, require, time_range

LENGTH = 24  # frames of a clip
MEDIA = 'REEL\t24\t0\t1000000\treel.mov\n'


def cut(clips, with_dissolves):
    """A track of clips that follow one another, where asked for with a dissolve at each fourth cut."""
    items = []
    for index in range(clips):
        items += [dissolve()] if with_dissolves and index % 4 == 1 else []
        items.append(f'{{"OTIO_SCHEMA":"Clip.2","name":"s{index}","source_range":{time_range(1000 + 7 * index, LENGTH)}}}')
    return timeline([track(items)])


def put(index, draw):
    return f'clip n{index} REEL {draw.randrange(900_000)} {LENGTH}'


LINES = {
    'overwrite': lambda at, index, draw: f'overwrite 0 {at} {put(index, draw)}',
    'insert': lambda at, index, draw: f'insert 0 {at} {put(index, draw)}',
    'slice': lambda at, index, draw: f'slice 0 {at}',
    'remove': lambda at, index, draw: f'remove 0 {at} close',
    'trim': lambda at, index, draw: f'trim 0 {at} 2 -2',
    'slip': lambda at, index, draw: f'slip 0 {at} 3',
    'slide': lambda at, index, draw: f'slide 0 {at + LENGTH} 1',
    'ripple': lambda at, index, draw: f'ripple 0 {at} 1 -1',
    'roll': lambda at, index, draw: f'roll 0 {at + LENGTH} 1 0',
}
STEPS = ('undo', 'redo')
# these keep the number of items, but for one slice before the steps
KEEPING = ('slip', 'slide', 'roll', 'undo and redo')
NEAR_LIMIT = 99_990


def script_of(kind, clips, count):
    """So many commands of a kind, each at an instant in the first three quarters of the track."""
    draw = random.Random(kind)
    lines = []
    for index in range(count):
        word = draw.choice(list(LINES)) if kind == 'mixed' else kind
        at = draw.randrange(clips * 3 // 4) * LENGTH + draw.randrange(1, LENGTH)
        if kind == 'undo and redo' and index:
            lines.append(STEPS[(index + 1) % 2])
        elif kind == 'mixed' and index % 10 > 7:
            lines.append(STEPS[index % 2])
        else:
            lines.append(LINES[word if word in LINES else 'slice'](at, index, draw))
    return '\n'.join(lines) + '\n'


def write(folder, name, text):
    with open(os.path.join(folder, name), 'w') as file:
        file.write(text)


def processor_time(words, folder):
    """Milliseconds of a run that ends with status 0."""
    before = resource.getrusage(resource.RUSAGE_CHILDREN)
    subprocess.run(words, cwd=folder, stdout=subprocess.DEVNULL, check=True)
    after = resource.getrusage(resource.RUSAGE_CHILDREN)
    return 1000 * (after.ru_utime + after.ru_stime - before.ru_utime - before.ru_stime)


def measured(folder, otio, kind, clips, commands, runs):
    """Milliseconds of a script of one command and of so many, and microseconds of each command more than one."""
    write(folder, 'one.txt', script_of(kind, clips, 1))
    write(folder, 'all.txt', script_of(kind, clips, commands))
    words = [[otio, 'edit', '--script', script, '--media', 'media.txt', 'cut.otio'] for script in ('one.txt', 'all.txt')]
    one, many = (min(times) for times in zip(*([processor_time(each, folder) for each in words] for _ in range(runs))))
    return one, many, max(many - one, 0) * 1000 / (commands - 1)


def by_kind(folder, otio, clips, commands, runs):
    print(f'{commands} commands on a track of {clips} clips:\n')
    print('| commands | dissolves | ms, one | ms, all | us a command | all to one |\n|---|---|---|---|---|---|')
    for with_dissolves in (False, True):
        size = clips * 4 // 5 if with_dissolves else clips
        write(folder, 'cut.otio', cut(size, with_dissolves))
        for kind in [*LINES, 'undo and redo', 'mixed']:
            one, many, cost = measured(folder, otio, kind, size, commands, runs)
            told = 'each fourth cut' if with_dissolves else 'none'
            print(f'| {kind} | {told} | {one:.0f} | {many:.0f} | {cost:.1f} | {ratio(many, one)} |', flush=True)


def near_limit(folder, otio, commands, runs):
    print(f'\n{commands} commands on a track of {NEAR_LIMIT} clips:\n\n| commands | ms, one | ms, all | us a command |\n|---|---|---|---|')
    write(folder, 'cut.otio', cut(NEAR_LIMIT, False))
    for kind in KEEPING:
        one, many, cost = measured(folder, otio, kind, NEAR_LIMIT, commands, runs)
        print(f'| {kind} | {one:.0f} | {many:.0f} | {cost:.1f} |', flush=True)


def growth(folder, otio, sizes, counts, runs):
    print('\nCommands of all kinds:\n\n| clips | commands | ms, one | ms, all | us a command |\n|---|---|---|---|---|')
    for clips, commands in [(size, counts[-1]) for size in sizes] + [(sizes[-1], count) for count in counts[:-1]]:
        write(folder, 'cut.otio', cut(clips, False))
        one, many, cost = measured(folder, otio, 'mixed', clips, commands, runs)
        print(f'| {clips} | {commands} | {one:.0f} | {many:.0f} | {cost:.1f} |', flush=True)


def numbers(text):
    return [int(part) for part in text.split(',')]


def main():
    words = argparse.ArgumentParser()
    words.add_argument('--runs', type=int, default=3)
    words.add_argument('--clips', type=numbers, default=[790, 7900, 79_000], help='clips of a track')
    words.add_argument('--commands', type=numbers, default=[100, 1000, 10_000], help='commands of a script, at least 2')
    asked = words.parse_args()
    otio = os.path.abspath(os.environ.get('OTIO', PROGRAM))
    require(otio)
    with tempfile.TemporaryDirectory() as folder:
        write(folder, 'media.txt', MEDIA)
        by_kind(folder, otio, asked.clips[-1], asked.commands[-1], asked.runs)
        near_limit(folder, otio, asked.commands[-1], asked.runs)
        growth(folder, otio, asked.clips, asked.commands, asked.runs)


if __name__ == '__main__':
    main()
