#!/usr/bin/env python3
"""Measures `otio tool`, `otio cat` and `otio stat` on generated timelines.

    bench/tools.py [--runs R] [--clips N] [--files N] [--each N]

Each call on one timeline near the limit of items (99 990 clips), on one track and on ten: flattened, cut to a window, freed of transitions,
listed, counted; beside reading and judging it alone (`stat`) and reading and writing it (`convert`). Then so many files (990) of so many
clips (100) one after another, beside `cat` of their bytes and `convert` of one file with as many clips.

Output goes to /dev/null. Times are processor times (user and system), the least of R runs (3). The program is OTIO of the environment, or
the one that `./otio --prove` builds.
"""
import argparse
import os
import tempfile

from edits import processor_time, write
from frames import timeline, track
from json_layout import PROGRAM, ratio, require, time_range

LENGTH = 24  # frames of a clip


def clip(index):
    return f'{{"OTIO_SCHEMA":"Clip.2","name":"s{index}","source_range":{time_range(1000 + 7 * index, LENGTH)}}}'


def clips(count, tracks):
    """So many clips on so many tracks, each track a little later than the one below, so that all give stretches."""
    rows = []
    for number in range(tracks):
        late = [f'{{"OTIO_SCHEMA":"Gap.1","source_range":{time_range(0, number)}}}'] if number else []
        rows.append(track(late + [clip(index) for index in range(number, count, tracks)]))
    return timeline(rows)


def least(words, folder, runs):
    return min(processor_time(words, folder) for _ in range(runs))


def on_one(folder, otio, count, runs):
    print(f'{count} clips:\n\n| call | tracks | ms | to `stat` | to `convert` |\n|---|---|---|---|---|')
    calls = [['stat'], ['convert'], ['tool', '--flatten', 'video'], ['tool', '--trim', '86407,1000000'], ['tool', '--remove-transitions'],
             ['tool', '--list-tracks', '--list-clips', '--list-media', '--stats'], ['cat']]
    for tracks in (1, 10):
        write(folder, 'cut.otio', clips(count - tracks, tracks))
        base = {}
        for words in calls:
            took = least([otio, *words, 'cut.otio'], folder, runs)
            base[words[0]] = base.get(words[0], took)
            told = [ratio(took, base[name]) if name in base else '' for name in ('stat', 'convert')]
            print(f'| `{" ".join(words)}` | {tracks} | {took:.0f} | {told[0]} | {told[1]} |', flush=True)


def on_many(folder, otio, files, each, runs):
    print(f'\n{files} files of {each} clips:\n\n| call | ms | to `cat` of the bytes | to `convert` of one file |\n|---|---|---|---|')
    names = [f'{number}.otio' for number in range(files)]
    for name in names:
        write(folder, name, clips(each, 1))
    write(folder, 'all.otio', clips(min(files * each, 99_990), 1))
    count = min(files, 99_000 // each)
    calls = [('cat', ['cat', *names[:count]]), ('otio convert', [otio, 'convert', 'all.otio']), (f'otio cat, {count} files', [otio, 'cat', *names[:count]]),
             (f'otio tool --stack, {count} files', [otio, 'tool', '--stack', *names[:count]])]
    times = {}
    for told, words in calls:
        times[told] = least(words, folder, runs)
        print(f'| `{told}` | {times[told]:.0f} | {ratio(times[told], times["cat"])} | '
              f'{ratio(times[told], times["otio convert"]) if "otio convert" in times else ""} |', flush=True)


def main():
    words = argparse.ArgumentParser()
    words.add_argument('--runs', type=int, default=3)
    words.add_argument('--clips', type=int, default=99_990, help='clips of one timeline')
    words.add_argument('--files', type=int, default=990, help='files one after another')
    words.add_argument('--each', type=int, default=100, help='clips of each')
    asked = words.parse_args()
    otio = os.path.abspath(os.environ.get('OTIO', PROGRAM))
    require(otio)
    with tempfile.TemporaryDirectory() as folder:
        on_one(folder, otio, asked.clips, asked.runs)
        on_many(folder, otio, asked.files, asked.each, asked.runs)


if __name__ == '__main__':
    main()
