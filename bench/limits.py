#!/usr/bin/env python3
"""Holds how the program ends on files at each of its limits and one past it.

    bench/limits.py

Each row has a command line over files that are made for it, and the status and message that it has to have. At a limit the line is done, or refused
for another reason, which is tried later. The status is 1 where a row ended otherwise. The program is OTIO of the environment, or the one that `./otio --prove` builds.
"""
import os
import subprocess
import sys
import tempfile

from frames import timeline, track
from json_layout import PROGRAM, require, time_range

BYTES, ITEMS, COMMANDS, FILES, LEVELS = 33_554_432, 100_000, 10_000, 10_000, 127
GAP = '{"OTIO_SCHEMA":"Gap.1"}'
FRAME = '{"OTIO_SCHEMA":"Gap.1","source_range":%s}' % time_range(0, 1)
EVENT = '%d A1 V C 00:00:00:00 00:00:00:01 %s %s\n'


def label(frame):
    return f'00:{frame // 1440:02d}:{frame // 24 % 60:02d}:{frame % 24:02d}'


def events(count):
    return ''.join(EVENT % (index + 1, label(index), label(index + 1)) for index in range(count))


def stacks(count):
    """A timeline of compositions in each other, with twice as many levels and one more."""
    return '{"OTIO_SCHEMA":"Timeline.1","tracks":' + '{"OTIO_SCHEMA":"Stack.1","children":[' * count + ']}' * count + '}'


def gaps(count):
    return timeline([track([GAP] * count)])


ONE = {'t.otio': timeline([track([FRAME])]), 'k.otio': timeline([track(['{"OTIO_SCHEMA":"Clip.2"}'])]), 'l.edl': EVENT % (1, label(0), label(1))}
# what is tried, the files made for it, the words, the status and the message
ROWS = [
    ('bytes of a text', {'f': ' ' * BYTES}, 'convert f', 1, 'otio: f: J1 Syntax at 33554432'),
    ('one more', {'f': ' ' * (BYTES + 1)}, 'convert f', 1, 'otio: f: J4 Large'),
    ('bytes of a list', {'f': '\n' * BYTES}, 'convert --from edl --to edl f', 0, ''),
    ('one more', {'f': '\n' * (BYTES + 1)}, 'convert --from edl --to edl f', 1, 'otio: f: L9 Large'),
    ('bytes of a list of one line', {'f': '*' * BYTES}, 'convert --from edl --to edl f', 0, ''),
    ('one more', {'f': '*' * (BYTES + 1)}, 'convert --from edl --to edl f', 1, 'otio: f: L9 Large'),
    ('bytes of a media list', {'f': '\n' * BYTES}, 'convert --media f l.edl', 1, 'otio: l.edl: Q1 NoReel at 1'),
    ('one more', {'f': '\n' * (BYTES + 1)}, 'convert --media f l.edl', 1, 'otio: f: M6 Large'),
    ('bytes of a script', {'f': '\n' * BYTES}, 'edit --script f k.otio', 1, 'otio: k.otio: K1 NoLength at 0'),
    ('one more', {'f': '\n' * (BYTES + 1)}, 'edit --script f k.otio', 1, 'otio: f: P4 Large'),
    ('levels of JSON', {'f': '[' * LEVELS + ']' * LEVELS}, 'convert --to json f', 0, ''),
    ('one more', {'f': '[' * (LEVELS + 1) + ']' * (LEVELS + 1)}, 'convert --to json f', 1, 'otio: f: J3 Depth at 127'),
    ('levels of objects', {'f': stacks(63)}, 'convert f', 0, ''),
    ('one more', {'f': stacks(64)}, 'convert f', 1, 'otio: f: J3 Depth at 2368'),
    ('items of a file', {'f': gaps(ITEMS - 1)}, 'convert f', 0, ''),
    ('one more', {'f': gaps(ITEMS)}, 'convert f', 1, 'otio: f: G1 Items'),
    ('items behind an edit', {'f': gaps(ITEMS - 2), 's': 'insert 0 0 gap 1\n'}, 'edit --script s f', 0, ''),
    ('one more', {'f': gaps(ITEMS - 1), 's': 'insert 0 0 gap 1\n'}, 'edit --script s f', 1, 'otio: s: E10 Items at 1'),
    ('one more by a cut', {'f': timeline([track([GAP] * (ITEMS - 2) + ['{"OTIO_SCHEMA":"Gap.1","source_range":%s}' % time_range(0, 2)])]), 's': 'slice 0 1\n'},
     'edit --script s f', 1, 'otio: s: E10 Items at 1'),
    ('items of a join', {'f': gaps(ITEMS - 2)}, 'cat f t.otio', 0, ''),
    ('one more', {'f': gaps(ITEMS - 1)}, 'cat f t.otio', 1, 'otio: f: G1 Items'),
    ('items of a pile', {'f': gaps(ITEMS - 3)}, 'tool --stack f t.otio', 0, ''),
    ('one more', {'f': gaps(ITEMS - 2)}, 'tool --stack f t.otio', 1, 'otio: f: G1 Items'),
    ('commands of a script', {'s': 'slice 0 0\n' * COMMANDS}, 'edit --script s t.otio', 0, ''),
    ('one more', {'s': 'slice 0 0\n' * (COMMANDS + 1)}, 'edit --script s t.otio', 1, 'otio: s: P3 Many'),
    ('one more, none of a known form', {'s': 'none\n' * (COMMANDS + 1)}, 'edit --script s t.otio', 1, 'otio: s: P1 Line at 1'),
    ('files of a command', {}, 'tool --stack ' + 't.otio ' * FILES, 0, ''),
    ('one more', {}, 'tool --stack ' + 't.otio ' * (FILES + 1), 2, 'otio: usage'),
    ('events of a narrow list', {'f': events(999)}, 'convert --from edl --to edl f', 0, ''),
    ('one more', {'f': events(1000)}, 'convert --from edl --to edl f', 1, 'otio: f: N13 Events at .'),
    ('the same, wide', {'f': events(1000)}, 'convert --from edl --to edl --wide f', 0, ''),
    ('a time', {'f': timeline([track([FRAME.replace('"value":1.0', '"value":24000000.0')])])}, 'stat f', 0, ''),
    ('one frame more', {'f': timeline([track([FRAME.replace('"value":1.0', '"value":24000001.0')])])}, 'stat f', 1, 'otio: f: S6 Range at 0/0'),
    ('one frame more in two items', {'f': timeline([track([FRAME.replace('"value":1.0', '"value":24000000.0'), FRAME])])}, 'stat f', 1, 'otio: f: K4 Long at 0'),
    ('edits of a drill', {}, 'drill 7 10000', 0, ''),
    ('one more', {}, 'drill 7 10001', 2, 'otio: usage'),
    ('seed of a drill', {}, 'drill 18446744073709551615 1', 0, ''),
    ('one more', {}, 'drill 18446744073709551616 1', 2, 'otio: usage'),
    ('frames of a line', {}, 'frames --count 1000000 t.otio', 0, ''),
    ('one more', {}, 'frames --count 1000001 t.otio', 2, 'otio: usage'),
]


def main():
    otio = os.path.abspath(os.environ.get('OTIO', PROGRAM))
    require(otio)
    others = 0
    print('| limit | status | message |\n|---|---|---|')
    with tempfile.TemporaryDirectory() as folder:
        for limit, files, line, status, message in ROWS:
            for name, text in {**ONE, **files}.items():
                with open(os.path.join(folder, name), 'w') as file:
                    file.write(text)
            ended = subprocess.run([otio, *line.split()], cwd=folder, stdin=subprocess.DEVNULL, stdout=subprocess.DEVNULL, stderr=subprocess.PIPE)
            told = ended.stderr.decode().split('\n')[0]
            print(f'| {limit} | {ended.returncode} | {told} |', flush=True)
            if (ended.returncode, told) != (status, message):
                others += 1
                print(f'otherwise: {line[:80]}: wanted {status}, {message}')
    print(f'\n{len(ROWS)} rows, {others} of them ended otherwise.')
    sys.exit(1 if others else 0)


if __name__ == '__main__':
    main()
