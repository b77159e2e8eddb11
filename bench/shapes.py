#!/usr/bin/env python3
"""Measures `otio convert` and `otio frames` on texts of every shape beside the best peers: what has to be fast, in one run.

    bench/shapes.py [--runs R] [--only WORD] [--growth]

Tables: JSON of each shape beside rapidjson (C++) and serde_json (Rust); objects to objects beside `--to json` of the same file and serde_json; lists of
32 MiB beside a plain C++ reader; files of many small parts, with their peak memory; lists that are conformed; frames of a clip with 100 000 effects.
With --growth: three sizes of each, a decade apart, and the exponent of growth from each size to the next (1 is linear).

Output goes to /dev/null. Times are processor time (user and system), the least of R runs (5), the programs of a row in turn, so that other work
on the machine falls on all of them alike. The program is OTIO of the environment, or the one that `./otio --prove` builds. --only measures the rows whose
name holds WORD.
"""
import argparse
import json
import math
import os
import random
import subprocess
import tempfile

from frames import clip as frame_clip, timeline, track
from json_layout import (
    LIMIT, PROGRAM, REMARKS, megabytes, output_of, rapidjson, ratio, require, serde, shown, write_timeline,
)
from lists import event_lines, plain_reader
from otio_objects import listed

CLIP_BYTES = 1130  # of a clip of the compact timeline
ESCAPES = [r'\n', r'\t', r'\"', r'\\', r'\u0007', r'\u00e9', r'\ud83c\udfac', r'\/', r'\r', r'\b']
LETTERS = 'Überfähre 夜の渡し船 ночной паром Ελλάδα '


def compact(size):
    with tempfile.NamedTemporaryFile('r', encoding='utf-8') as f:
        write_timeline(f.name, max(1, size // CLIP_BYTES))
        return f.read()


def pretty(size):
    """The layout of a compact timeline, which has 3.7 times its bytes."""
    with tempfile.TemporaryDirectory() as folder:
        path = os.path.join(folder, 'compact.otio')
        with open(path, 'w', encoding='utf-8') as f:
            f.write(compact(int(size / 3.7)))
        return subprocess.run([otio(), 'convert', '--to', 'json', path], stdout=subprocess.PIPE, check=True).stdout.decode('utf-8')


def nested(size):
    lists = '[' * 126 + '0' + ']' * 126
    return '[' + ','.join([lists] * max(1, size // (len(lists) + 1))) + ']'


def items(size, item):
    """A list of this size; `item` makes the next item."""
    parts, length = [], 0
    while length < size:
        parts.append(item())
        length += len(parts[-1].encode('utf-8')) + 1
    return '[' + ','.join(parts) + ']'


def strings(size, text):
    """A list of strings; `text` makes the next one."""
    return items(size, lambda: '"' + text() + '"')


def word(chance, least, most):
    return ''.join(chance.choice('abcdefghijklmnopqrstuvwxyz') for _ in range(chance.randrange(least, most + 1)))


def small_objects(size):
    chance = random.Random(11)
    return items(size, lambda: f'{{"a":{chance.randrange(1000)},"b":"{word(chance, 1, 5)}"}}')


def short_strings(size):
    chance = random.Random(12)
    return strings(size, lambda: word(chance, 3, 12))


def dense(size):
    """Strings of 8 to 39 escapes and nothing else."""
    chance = random.Random(13)
    return strings(size, lambda: ''.join(chance.choice(ESCAPES) for _ in range(chance.randrange(8, 40))))


def escaped(size):
    """Strings of 4 to 12 words of up to 6 letters, an escape behind each."""
    chance = random.Random(5)
    part = lambda: 'abcdef'[: chance.randrange(7)] + chance.choice(ESCAPES)
    return strings(size, lambda: ''.join(part() for _ in range(chance.randrange(4, 13))))


def foreign(size):
    chance = random.Random(6)
    return strings(size, lambda: LETTERS[chance.randrange(8):] * chance.randrange(1, 4))


def names(size):
    count = max(1, size // 33)
    order = list(range(count))
    random.Random(9).shuffle(order)
    return '{' + ','.join(f'"{index:028d}":0' for index in order) + '}'


def one_string(size):
    return '"' + 'a' * (size - 2) + '"'


def remarks(size):
    chance = random.Random(8)
    return strings(size, lambda: chance.choice(REMARKS))


def events(size):
    return ''.join(event_lines(max(1, size // 56), 3))


def shuffled(size):
    lines = event_lines(max(1, size // 56), 3)
    random.Random(7).shuffle(lines)
    return ''.join(lines)


def kept(member):
    return lambda size: listed('Clip.2', member, '0', max(1, (size - 200) // 2))


def timelines(size):
    each = '{"OTIO_SCHEMA":"Timeline.1"}'
    return listed('SerializableCollection.1', 'children', each, max(1, (size - 200) // (len(each) + 1)))


def effects(count):
    warp = '{"OTIO_SCHEMA":"LinearTimeWarp.1","time_scalar":1.0}'
    return timeline([track([frame_clip(0).replace('"source_range"', '"effects":[' + ','.join([warp] * count) + '],"source_range"')])])


def otio():
    return os.path.abspath(os.environ.get('OTIO', PROGRAM))


def cost(words):
    """Processor time of one run in ms."""
    child = subprocess.Popen(words, stdout=subprocess.DEVNULL, stderr=subprocess.DEVNULL)
    _, status, usage = os.wait4(child.pid, 0)
    child.returncode = os.waitstatus_to_exitcode(status)
    return (usage.ru_utime + usage.ru_stime) * 1000


def costs(rows, folder, runs):
    """The least time and the peak memory in MB of each command; the commands run in turn."""
    best = [math.inf] * len(rows)
    for _ in range(runs):
        best = [min(time, cost(words)) for time, words in zip(best, rows)]
    return [(time, megabytes(words, folder)) for time, words in zip(best, rows)]


def written(folder, name, text):
    path = os.path.join(folder, name)
    with open(path, 'w', encoding='utf-8') as f:
        f.write(text)
    return path


JSON = [
    ('compact', compact, 27_000_000), ('pretty', pretty, 27_000_000), ('lists nested 126 deep', nested, 33_500_000), ('strings with escapes', escaped, 27_000_000),
    ('escapes alone', dense, 27_000_000), ('small objects', small_objects, 27_000_000), ('short strings', short_strings, 27_000_000),
    ('remarks of editors', remarks, 27_000_000), ('strings that are not ASCII', foreign, 27_000_000), ('a million names in random order', names, 33_000_000),
    ('one string', one_string, LIMIT),
]
OBJECTS = [('objects', compact, 27_000_000)]
LISTS = [('events in order', events, 31_000_000), ('events shuffled', shuffled, 31_000_000)]
PARTS = [('kept markers', kept('markers'), LIMIT), ('kept effects', kept('effects'), LIMIT), ('empty timelines', timelines, LIMIT)]


def beside(title, rows, programs, folder, runs, column=None, ending='otio'):
    """One table: the first program is measured against each other one. A program's words are followed by the file."""
    if not rows:
        return
    heads = [f'{name} ms | {name} MB' for name, _ in programs]
    print(f'\n| {title} | MB | ' + ' | '.join(heads) + ' | ' + ' | '.join(f'ms to {name}' for name, _ in programs[1:]) + (' | MB to ' + column if column else '') + ' | bytes |')
    print('|' + '---|' * (2 + 2 * len(programs) + len(programs) - 1 + (1 if column else 0) + 1))
    for name, text, size in rows:
        path = written(folder, 'shape.' + ending, text(size))
        commands = [words + [path] for _, words in programs]
        best = costs(commands, folder, runs)
        texts = [output_of(words, folder) for words in commands]
        same = 'same' if all(text == texts[0] for text in texts if text is not None) else 'others'
        cells = [f'{time:.0f} | {shown(peak)}' for time, peak in best]
        ratios = [ratio(best[0][0], time) for time, _ in best[1:]]
        memory = [ratio(best[0][1], best[[name for name, _ in programs].index(column)][1])] if column else []
        print(f'| {name} | {os.path.getsize(path) / 1e6:.1f} | ' + ' | '.join(cells + ratios + memory) + f' | {same} |', flush=True)


def asked(rows, only):
    return [row for row in rows if only in row[0]]


def tables(folder, runs, only):
    peers = [(name, made) for name, (made, missing) in [('rapidjson', rapidjson(folder)), ('serde_json', serde(folder))] if not missing]
    texts = [('otio', [otio(), 'convert', '--to', 'json'])] + [(name, [made]) for name, made in peers]
    beside('JSON', asked(JSON, only), texts, folder, runs, 'rapidjson')
    objects = [('otio convert', [otio(), 'convert']), ('--to json', [otio(), 'convert', '--to', 'json'])] + [(name, [made]) for name, made in peers]
    beside('Objects', asked(OBJECTS, only), objects, folder, runs)
    lists = [('otio', [otio(), 'convert', '--to', 'edl'])] + plain_reader(folder)
    beside('Lists', asked(LISTS, only), lists, folder, runs, ending='edl')
    beside('Many small parts', asked(PARTS, only), [('otio convert', [otio(), 'convert'])], folder, runs)
    if only in 'conformed lists':
        conformed(folder, runs)
    if only in 'frames of a clip with 100 000 effects':
        path = written(folder, 'effects.otio', effects(100000))
        words = [otio(), 'frames', '--count']
        (one, _), (many, peak) = costs([words + ['1', path], words + ['10000', path]], folder, runs)
        print(f'\nFrames of a clip with 100 000 effects: the first {one:.0f} ms, 10 000 of them {many:.0f} ms, {shown(peak)} MB.')


def media_list(folder):
    return written(folder, 'media.txt', 'T\t24\t0\t100000\tfile:///reels/t.mov\n')


def conformed(folder, runs):
    """Lists that are conformed with a media list, beside the timelines that come of them, read and written anew."""
    media = media_list(folder)
    print('\n| Conformed | events | MB | ms | MB peak | status | its timeline, compact, MB | read and written anew, ms | ratio |\n|' + '---|' * 9)
    for count in (1000, 30000, 99000, 400000):
        path = written(folder, 'cut.edl', ''.join(event_lines(count, 3)))
        made = os.path.join(folder, 'cut.otio')
        words = [otio(), 'convert', '--media', media, '-o', made, path]
        status = subprocess.run(words, stderr=subprocess.DEVNULL).returncode
        (time, peak), = costs([words], folder, runs)
        rest = '- | - | -'
        if status == 0 and os.path.getsize(made) < 3 * LIMIT:
            with open(made, encoding='utf-8') as f:
                small = written(folder, 'small.otio', json.dumps(json.load(f), separators=(',', ':')))
            (again, _), = costs([[otio(), 'convert', small]], folder, runs)
            rest = f'{os.path.getsize(small) / 1e6:.1f} | {again:.0f} | {ratio(time, again)}'
        print(f'| a cut | {count} | {os.path.getsize(path) / 1e6:.1f} | {time:.0f} | {shown(peak)} | {status} | {rest} |', flush=True)


def growth(folder, runs, only):
    print('\n| Growth | MB | ms | exponent | MB | ms | exponent | MB | ms |\n|' + '---|' * 9)
    convert = [otio(), 'convert']
    kinds = [(JSON, convert + ['--to', 'json']), (OBJECTS, convert), (LISTS, convert + ['--to', 'edl']), (PARTS, convert)]
    for rows, words in kinds:
        for name, text, size in asked(rows, only):
            sizes = [size // 100, size // 10, size]
            ending = 'edl' if words[-1] == 'edl' else 'otio'
            files = [written(folder, f'shape{place}.{ending}', text(part)) for place, part in enumerate(sizes)]
            times = [time for time, _ in costs([words + [path] for path in files], folder, runs)]
            cells = [f'{os.path.getsize(path) / 1e6:.1f} | {time:.0f}' for path, time in zip(files, times)]
            grows = [exponent(files[i], files[i + 1], times[i], times[i + 1]) for i in range(2)]
            print(f'| {name} | {cells[0]} | {grows[0]} | {cells[1]} | {grows[1]} | {cells[2]} |', flush=True)


def exponent(small, large, before, after):
    if before <= 0:
        return '-'
    return f'{math.log(after / before) / math.log(os.path.getsize(large) / os.path.getsize(small)):.2f}'


def main():
    words = argparse.ArgumentParser()
    words.add_argument('--runs', type=int, default=5)
    words.add_argument('--only', default='')
    words.add_argument('--growth', action='store_true')
    given = words.parse_args()
    require(otio())
    with tempfile.TemporaryDirectory() as folder:
        (growth if given.growth else tables)(folder, given.runs, given.only)


if __name__ == '__main__':
    main()
