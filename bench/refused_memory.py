#!/usr/bin/env python3
"""Refuses each allocation of the program in turn, and holds how it ends.

    bench/refused_memory.py [--only WORD]

Each command line of a table runs on small files once without a refusal, which is the whole answer. Then, for k = 1, 2, 3, .. up to the
first k that isn't reached, it runs with the k-th allocation refused alone, and with all from the k-th on refused. Each of these runs has to give
the whole answer (status, output, message), or status 5 with the message `otio: no memory` and no output; `frames` alone may have sent
a prefix of its lines. No file that is read may change, and no file is written but one that `-o` names, under the same rule.

The table has for each command line its status and the allocations of the whole run; then, with one refused and with all from one on, the runs with a
refusal, how many of them gave status 5, how many of these had sent lines, and how many gave the whole answer. The status is 1 where any run ended
otherwise; each such run is told.

A second table is of command lines on 4000 clips with a bounded address space, from 4 MiB on by quarters of a MiB until one is done, under the
same rule: there the system refuses.

Allocations are malloc, calloc and realloc, counted together by `refused_memory.c`, which gcc compiles for the run. The program is OTIO of the
environment, or the one that `./otio --prove` builds.
"""
import argparse
import os
import resource
import subprocess
import sys
import tempfile

from frames import timeline, track
from json_layout import HERE, PROGRAM, rational, require, time_range

NO_MEMORY = (5, b'otio: no memory\n')
MEBIBYTE = 1 << 20
CLIPS = 4000  # of the timeline that is read with a bounded address space
BOUNDED = ['convert many.otio', 'convert --to json many.otio', 'frames many.otio', 'tool --flatten video many.otio', 'edit --script many.txt many.otio']
ALL = 2**64 - 1  # a number that no allocation has
OUT = 'out.txt'
MEDIA = [('A1', 'a.mov'), ('B1', 'b.mov'), ('C1', 'c.mov'), ('W', 'w.mov'), ('S', 'a.wav')]
CROSS = f'{{"OTIO_SCHEMA":"Transition.1","transition_type":"SMPTE_Dissolve","in_offset":{rational(6)},"out_offset":{rational(6)}}}'
GAP = '{"OTIO_SCHEMA":"Gap.1","source_range":%s}'
LIST = """TITLE: fifteen
FCM: NON-DROP FRAME
001  A1       V     C        00:00:04:04 00:00:05:18 01:00:00:00 01:00:01:14
* FROM CLIP NAME: a
002  A1       V     C        00:00:05:18 00:00:05:18 01:00:01:14 01:00:01:14
002  B1       V     D    024 00:00:07:22 00:00:10:08 01:00:01:14 01:00:04:00
* FROM CLIP NAME: a
* TO CLIP NAME: b
"""
UNDONE = 'overwrite 0 40 clip w W 0 10\noverwrite 0 100 clip w W 0 5\nundo\nundo\n'
ALL_EDITS = """# each edit once
overwrite 0 40 clip "w, the first" W 0 10
undo
redo
insert 0 10 clip w W 20 5
slice 1 76
fill 1 10 fit clip w W 0 36
slip 1 80 2
slide 0 30 1
ripple 0 20 1 -1
trim 2 50 2 -2
roll 0 30 1 0
remove 0 50 gap
remove 0 5 close
undo
undo
redo
"""


def clip(name, start, length, url, more=''):
    media = f'{{"OTIO_SCHEMA":"ExternalReference.1","target_url":"{url}","available_range":{time_range(0, 240)}}}'
    return (f'{{"OTIO_SCHEMA":"Clip.2","name":"{name}","source_range":{time_range(start, length)},'
            f'"media_references":{{"DEFAULT_MEDIA":{media}}}{more}}}')


def some_files():
    """Names and texts of the files that the command lines read."""
    fast = ',"effects":[{"OTIO_SCHEMA":"LinearTimeWarp.1","time_scalar":2.0}],"metadata":{"note":["\\u00e9t\\u00e9",1.50,null]}'
    below = track([clip('a', 24, 48, 'a.mov'), CROSS, clip('b', 100, 48, 'b.mov')])
    above = track([GAP % time_range(0, 72), clip('c', 40, 12, 'c.mov', fast)])
    sound = track([clip('s', 0, 96, 'a.wav')], 'Audio')
    return {
        'x.otio': timeline([below, above, sound]),
        'cut.otio': timeline([below, sound]),
        'plain.otio': timeline([track([clip('a', 0, 10, 'a.mov'), clip('b', 0, 10, 'b.mov')])]),
        'old.otio': '{"OTIO_SCHEMA":"Clip.1","name":"s","media_reference":null}',
        'newer.otio': '{"OTIO_SCHEMA":"SerializableCollection.1","children":[{"OTIO_SCHEMA":"Gap.1"},{"OTIO_SCHEMA":"Clip.3"}]}',
        'comma.otio': '{"a":[1,]}',
        'lengthless.otio': timeline([track(['{"OTIO_SCHEMA":"Clip.2"}'])]),
        'late.otio': timeline([track([clip('a', 0, 10, 'a.mov'), CROSS, clip('b', 0, 5, 'b.mov')])]),
        'l.edl': LIST,
        'unequal.edl': '1 T1 V C 00:00:00:00 00:00:01:00 00:00:00:00 00:00:02:00\n',
        'm.txt': ''.join(f'{reel}\t24\t0\t1000\t{url}\n' for reel, url in MEDIA),
        'twice.txt': 'A1\t24\t0\t9\ta.mov\nA1\t24\t0\t9\tb.mov\n',
        'undone.txt': UNDONE,
        'edits.txt': ALL_EDITS,
        'refused.txt': 'slice 0 10\nslice 0 9999\n',
    }


LINES = [
    'convert --to edl l.edl',
    'convert --to edl --wide l.edl',
    'convert l.edl',
    'convert --media m.txt l.edl',
    'convert x.otio',
    f'convert -o {OUT} x.otio',
    'convert old.otio',
    'convert --to json x.otio',
    'convert --to edl --media m.txt cut.otio',
    f'convert --to edl --wide --media m.txt -o {OUT} cut.otio',
    'frames x.otio',
    f'frames -o {OUT} --start 01:00:01:16 --count 16 x.otio',
    'frames --start 86000 --count 500 x.otio',
    'frames --media m.txt l.edl',
    'stat x.otio',
    'stat --media m.txt l.edl',
    'cat x.otio',
    'cat --media m.txt l.edl x.otio plain.otio',
    'tool --concat --video-only --remove-transitions --trim 86410,86600 --flatten video --keep-flattened-tracks x.otio x.otio',
    'tool --stack --remove-transitions --flatten all --media m.txt x.otio l.edl plain.otio',
    'tool --audio-only --trim 01:00:00:12,01:00:02:00 x.otio',
    'tool --list-tracks --list-clips --list-media --stats x.otio',
    'tool --concat --list-media --stats x.otio plain.otio',
    'edit --media m.txt --script undone.txt x.otio',
    'edit --media m.txt --script edits.txt x.otio',
    'edit --media m.txt --script undone.txt l.edl',
    'drill 3 20',
    f'drill -o {OUT} 7 40',
    '',
    'paint x.otio',
    'frames --rate 29.5 l.edl',
    'convert gone.otio',
    'convert --media gone.txt l.edl',
    'convert comma.otio',
    'convert newer.otio',
    'convert --to edl unequal.edl',
    'convert --to edl x.otio',
    'convert --media twice.txt l.edl',
    'frames lengthless.otio',
    'frames --start 01:00:00:24 x.otio',
    'cat plain.otio late.otio plain.otio',
    'tool --trim 12,4 x.otio',
    'edit --media m.txt --script refused.txt x.otio',
]


def run_once(words, folder, library, first=0, last=0):
    """Status, output, message and written file (none where there is none), and how many allocations were counted and how many refused; the
    counts are none where the program didn't come to its end."""
    path = os.path.join(folder, OUT)
    if os.path.exists(path):
        os.remove(path)
    reading, writing = os.pipe()
    setting = dict(os.environ, LD_PRELOAD=library, REFUSE_FROM=str(first), REFUSE_TO=str(last), REFUSE_NOTE=str(writing))
    ended = subprocess.run(words, cwd=folder, env=setting, pass_fds=[writing], stdin=subprocess.DEVNULL, capture_output=True)
    os.close(writing)
    note = os.read(reading, 64).split()
    os.close(reading)
    written = None
    if os.path.exists(path):
        with open(path, 'rb') as file:
            written = file.read()
    counts = (int(note[0]), int(note[1])) if len(note) == 2 else None
    return (ended.returncode, ended.stdout, ended.stderr, written), counts


def is_without_memory(words, answer, whole):
    """Whether an answer is want of memory, with nothing sent; of the lines of `frames` a prefix."""
    status, sent, told, written = answer
    if (status, told) != NO_MEMORY:
        return False
    if words[1:2] == ['frames']:
        return whole[1].startswith(sent) and (written is None or (whole[3] is not None and whole[3].startswith(written)))
    return sent == b'' and written is None


def contents(folder, names):
    found = {}
    for name in names:
        with open(os.path.join(folder, name), 'rb') as file:
            found[name] = file.read()
    return found


def refuse_each(words, folder, library, whole, is_last):
    """How many runs gave status 5, how many of these had sent lines, and how many gave the whole answer, and what is told of the others, with the
    k-th allocation refused for each k that is reached, alone or with all behind it."""
    without, begun, same, others = 0, 0, 0, []
    for k in range(1, ALL):
        answer, counts = run_once(words, folder, library, k, k if is_last else ALL)
        if counts is not None and counts[1] == 0:
            return without, begun, same, others + ([] if answer == whole else [f'k = {k}, nothing refused: {answer}'])
        if counts is not None and is_without_memory(words, answer, whole):
            without += 1
            begun += bool(answer[1] or answer[3])
        elif counts is not None and answer == whole:
            same += 1
        else:
            others.append(f'k = {k}{"" if is_last else " and on"}: {answer}, counts {counts}')
            if len(others) > 20:
                return without, begun, same, others


def try_line(line, folder, otio, library):
    """A row of the table, and what is told of runs that ended otherwise."""
    words = [otio, *line.split()]
    files = contents(folder, some_files())
    whole, counts = run_once(words, folder, library)
    is_ample = counts is not None and counts[0] and not counts[1] and whole[0] != NO_MEMORY[0]
    others = [] if is_ample else [f'without a refusal: {whole}, counts {counts}']
    row = [f'`otio {line}`'.replace(' `', '`'), whole[0], counts[0] if counts else '']
    for is_last in (True, False):
        without, begun, same, more = refuse_each(words, folder, library, whole, is_last)
        row += [without + same + len(more), without, begun, same]
        others += more
    if contents(folder, some_files()) != files:
        others.append('a file that was read has changed')
    return row, [f'otio {line}: {other}' for other in others]


def write_many(folder):
    clips = [f'{{"OTIO_SCHEMA":"Clip.2","name":"s{index}","source_range":{time_range(1000 + 7 * index, 24)}}}' for index in range(CLIPS)]
    slices = [f'slice 0 {24 * index + 5}' for index in range(CLIPS // 2)]
    for name, text in (('many.otio', timeline([track(clips)])), ('many.txt', '\n'.join(slices + ['undo'] * (CLIPS // 4)))):
        with open(os.path.join(folder, name), 'w') as file:
            file.write(text)


def try_bounds(line, folder, otio):
    """A row of the second table, and what is told of runs that ended otherwise."""
    words, without, others = [otio, *line.split()], 0, []
    whole = subprocess.run(words, cwd=folder, stdin=subprocess.DEVNULL, capture_output=True)
    for quarters in range(16, 4096):
        size = quarters * MEBIBYTE // 4
        ended = subprocess.run(words, cwd=folder, stdin=subprocess.DEVNULL, capture_output=True,
                               preexec_fn=lambda: resource.setrlimit(resource.RLIMIT_AS, (size, size)))
        answer = (ended.returncode, ended.stdout, ended.stderr)
        if answer == (whole.returncode, whole.stdout, whole.stderr):
            break
        if is_without_memory(words, (*answer, None), (whole.returncode, whole.stdout, whole.stderr, None)):
            without += 1
        else:
            others.append(f'otio {line}: {size} bytes of address space: {answer[0]}, {len(answer[1])} bytes sent, {answer[2]}')
    return [f'`otio {line}`', whole.returncode, len(whole.stdout), without, f'{size / MEBIBYTE:.2f}'], others


def main():
    asked = argparse.ArgumentParser()
    asked.add_argument('--only', default='', help='command lines that hold this alone')
    only = asked.parse_args().only
    otio = os.path.abspath(os.environ.get('OTIO', PROGRAM))
    require(otio)
    sums, others = [0] * 8, []
    with tempfile.TemporaryDirectory() as folder:
        library = os.path.join(folder, 'refused_memory.so')
        subprocess.run(['gcc', '-shared', '-fPIC', '-O1', '-o', library, os.path.join(HERE, 'refused_memory.c')], check=True)
        for name, text in some_files().items():
            with open(os.path.join(folder, name), 'w') as file:
                file.write(text)
        print('| command line | status | allocations | one refused | 5 | lines sent | whole | all from one on | 5 | lines sent | whole |')
        print('|---' * 11 + '|')
        for line in LINES:
            if only in line:
                row, more = try_line(line, folder, otio, library)
                print('| ' + ' | '.join(str(cell) for cell in row) + ' |', flush=True)
                sums = [had + new for had, new in zip(sums, row[3:])]
                others += more
        print('| all | | | ' + ' | '.join(str(cell) for cell in sums) + ' |')
        print('\n| command line | status | bytes sent | runs with status 5 | MiB of the first that is done |\n|---|---|---|---|---|')
        write_many(folder)
        runs = sum(sums[::4])
        for line in BOUNDED:
            if only in line:
                row, more = try_bounds(line, folder, otio)
                print('| ' + ' | '.join(str(cell) for cell in row) + ' |', flush=True)
                runs += row[3] + len(more)
                others += more
    print(f'\n{runs} runs with memory refused, {len(others)} of them ended otherwise.')
    for other in others:
        print(other)
    sys.exit(1 if others else 0)


if __name__ == '__main__':
    main()
