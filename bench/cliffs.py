#!/usr/bin/env python3
"""Measures the shapes of legal input that are hard: many commands, frames or copies over one part that is as large as a file can hold.

    bench/cliffs.py [--runs R] [--only WORD] [--decades D]

A row for each shape at three sizes, a decade apart: the items of the timeline and the commands, frames or files both grow by ten, so an exponent
of 1 means that the time grows as they do, and 2 that each command looks at each item. Then the time and the memory of the largest one, which
stands within the limits. --decades 2 leaves out the smallest, --decades 1 measures the largest alone.

Output goes to /dev/null. Times are processor times (user and system), the least of R runs (1). The program is OTIO of the environment, or the
one that `./otio --prove` builds. --only takes the shapes whose name has the word.
"""
import argparse
import math
import os
import random
import sys
import tempfile

from edits import LENGTH, MEDIA, processor_time, put, script_of, write
from frames import timeline, track
from json_layout import PROGRAM, megabytes, rational, require, shown, time_range
from pull import timeline as unstarted

LONG = 20_000_000  # frames of an overlap that reaches over a whole track


def clip(index, more='', length=LENGTH):
    return f'{{"OTIO_SCHEMA":"Clip.2","name":"s{index}","source_range":{time_range(1000 + 7 * index, length)}{more}}}'


def gap(length=LENGTH):
    return f'{{"OTIO_SCHEMA":"Gap.1","source_range":{time_range(0, length)}}}'


def stack(children, more=''):
    return f'{{"OTIO_SCHEMA":"Stack.1"{more},"children":[' + ','.join(children) + ']}'


def transition(before, after):
    return f'{{"OTIO_SCHEMA":"Transition.1","in_offset":{rational(before)},"out_offset":{rational(after)}}}'


def numbered(count, line):
    return '\n'.join(line(index) for index in range(count)) + '\n'


def edited(text, script):
    """The files and words of a run of a script."""
    return {'cut.otio': text, 'all.txt': script, 'media.txt': MEDIA}, ['edit', '--script', 'all.txt', '--media', 'media.txt', 'cut.otio']


def framed(text, frames, start=None):
    words = ['frames', '--count', str(frames), 'cut.otio']
    return {'cut.otio': text}, words[:1] + (['--start', str(start)] if start is not None else []) + words[1:]


def overlapped(clips, every, before, after):
    """A track of clips with a transition of these offsets at each so many cuts."""
    items = []
    for index in range(clips):
        items += [transition(before, after)] if index and index % every == 0 else []
        items.append(clip(index))
    return track(items)


def late_clips(size):
    """No start time, and a clip after all gaps: the record rate is that of the clip."""
    items = [gap() for _ in range(89 * size)] + [clip(0)]
    return edited(unstarted([track(items)]), numbered(10 * size, lambda index: f'slice 0 {index * LENGTH * 8 + 7}'))


def far_overlaps(size, every):
    return framed(timeline([overlapped(49 * size, every, LONG, 0)]), 10 * size)


def whole_track(clips, commands):
    text = timeline([track([clip(index) for index in range(clips)])])
    return edited(text, numbered(commands, lambda index: 'undo' if index % 2 else f'overwrite 0 0 gap {clips * LENGTH}'))


def most_of_track(clips, commands):
    text = timeline([track([clip(index) for index in range(clips)])])
    return edited(text, numbered(commands, lambda index: 'undo' if index % 2 else f'overwrite 0 {clips // 100 * LENGTH} gap {clips // 50 * 49 * LENGTH}'))


def one_far_overlap(size, kind):
    """One transition at the front that reaches over a thousand clips, and edits after it."""
    items = [clip(0), transition(0, 240 * size), *(clip(index) for index in range(1, 49 * size))]
    draw = random.Random(kind)
    lines = {'slice': lambda at, _: f'slice 0 {at}', 'insert': lambda at, index: f'insert 0 {at} {put(index, draw)}',
             'overwrite': lambda at, index: f'overwrite 0 {at} {put(index, draw)}'}
    at = [draw.randrange(11 * size, 45 * size) * LENGTH + draw.randrange(1, LENGTH) for _ in range(10 * size)]
    return edited(timeline([track(items)]), numbered(10 * size, lambda index: lines[kind](at[index], index)))


def random_overlaps(size):
    draw, items = random.Random(15), []
    for index in range(49 * size):
        items += [transition(draw.randrange(60 * size), draw.randrange(60 * size))] if index else []
        items.append(clip(index))
    return edited(timeline([track(items)]), script_of('mixed', 49 * size, 2 * size))


def late_reel(size):
    names = ','.join(f'"n{index}":0' for index in range(900 * size))
    reel = f',"metadata":{{{names},"cmx_3600":{{"reel":"LATE"}}}}'
    return framed(timeline([track([clip(0, reel, 10 * size)])]), 10 * size)


def late_media(size):
    media = ','.join(f'"m{index}":{{"OTIO_SCHEMA":"ExternalReference.1","target_url":"{index}.mov"}}' for index in range(90 * size))
    more = f',"media_references":{{{media}}},"active_media_reference_key":"m{90 * size - 1}"'
    return framed(timeline([track([clip(0, more, 10 * size)])]), 10 * size)


def no_reel(size):
    names = ','.join(f'"n{index}":0' for index in range(900 * size))
    return framed(timeline([track([clip(0, f',"metadata":{{{names}}}', 10 * size)])]), 10 * size)


def no_reel_within(size):
    names = ','.join(f'"n{index}":0' for index in range(900 * size))
    return framed(timeline([track([clip(0, f',"metadata":{{"cmx_3600":{{{names}}}}}', 10 * size)])]), 10 * size)


def no_media(size):
    media = ','.join(f'"m{index}":{{"OTIO_SCHEMA":"ExternalReference.1","target_url":"{index}.mov"}}' for index in range(90 * size))
    more = f',"media_references":{{{media}}},"active_media_reference_key":"none"'
    return framed(timeline([track([clip(0, more, 10 * size)])]), 10 * size)


def dark_stack(size):
    children = [clip(0, '', 100 * size), *(clip(index, ',"enabled":false', 100 * size) for index in range(1, 10 * size))]
    return framed(timeline([stack(children)]), 100 * size)


def nested_tracks(size):
    tracks = [track([clip(index, '', 100 * size)]) for index in range(49 * size)]
    lines = numbered(10 * size, lambda index: f'overwrite 0/0/0 {index % size} gap 1')
    return edited(timeline([track([stack(tracks)])]), lines)


def moved_beside(size, moved, kind):
    """Three items, of which the first carries much: its neighbour is moved or trimmed, or what it shows."""
    by = lambda index: 1 - 2 * (index % 2)
    lines = {
        'slide': lambda index: f'slide 0 {10 * LENGTH + 5} {by(index)}',
        'trim': lambda index: f'trim 0 {10 * LENGTH + 5} {by(index)} 0',
        'slip': lambda index: f'slip 0 {5 * LENGTH} {by(index)}',
    }
    items = [moved, clip(1), clip(2)]
    return edited(timeline([track(items)]), numbered(size, lines[kind]))


def full_stack(size, kind):
    more = f',"source_range":{time_range(0, 10 * LENGTH)}'
    return moved_beside(max(2, size * 2 // 10), stack([clip(index, '', 100 * LENGTH) for index in range(49 * size)], more), kind)


def full_metadata(size):
    numbers = ','.join(str(index % 10) for index in range(1000 * size))
    return moved_beside(max(2, size * 6 // 100), clip(0, f',"metadata":{{"all":[{numbers}]}}', 10 * LENGTH), 'slip')


def full_markers(size):
    marker = f'{{"OTIO_SCHEMA":"Marker.2","marked_range":{time_range(1000, 1)}}}'
    return moved_beside(max(2, size * 2 // 10), clip(0, f',"markers":[{",".join([marker] * (20 * size))}]', 10 * LENGTH), 'slip')


def full_effects(size):
    effects = ','.join(['{"OTIO_SCHEMA":"Effect.1"}'] * (10 * size))
    return moved_beside(max(2, size), clip(0, f',"effects":[{effects}]', 10 * LENGTH), 'slip')


def joined_effects(size):
    effects = ','.join(['1'] * (8000 * size))
    texts = {f'{index}.otio': timeline([track([clip(0, f',"metadata":{{"all":[{effects}]}}')])]) for index in range(2)}
    return texts, ['cat', *texts]


def joined_texts(size):
    long = 'x' * 500
    text = timeline([track([clip(index, f',"metadata":{{"note":"{long}"}}') for index in range(2 * size)])])
    texts = {f'{index}.otio': text for index in range(20)}
    return texts, ['cat', *texts]


def many_inputs(size, kind_of):
    texts = {f'{index}.otio': timeline([track([], kind_of(index))]) for index in range(10 * size - 10)}
    return texts, ['cat', *texts]


def many_tracks(size):
    texts, words = many_inputs(size, lambda _: 'Video')
    texts[words[-1]] = timeline([track([])] * (10 * size - 10))
    return texts, words


def deep_clips(size):
    items = [clip(index) for index in range(99 * size)]
    item = track(items)
    for _ in range(57):
        item = track([item])
    return {'cut.otio': timeline([item])}, ['tool', '--remove-transitions', 'cut.otio']


SHAPES = [
    ('a clip after 89 000 gaps and no start time, 10 000 slices', late_clips),
    ('20 000 000 frames of overlap at each of 49 000 cuts, 10 000 frames', lambda size: far_overlaps(size, 1)),
    ('the same at each 64th cut', lambda size: far_overlaps(size, 64)),
    ('a track of 9 900 clips overwritten whole and put back, 10 000 commands', lambda size: whole_track(99 * size // 10, 10 * size)),
    ('a track of 99 000 clips overwritten whole and put back, 1 000 commands', lambda size: whole_track(99 * size, size)),
    ('nearly all of a track of 9 900 clips overwritten and put back, 10 000 commands', lambda size: most_of_track(99 * size // 10, 10 * size)),
    ('nearly all of a track of 99 000 clips overwritten and put back, 1 000 commands', lambda size: most_of_track(99 * size, size)),
    ('one overlap of 10 000 clips, 10 000 slices after it', lambda size: one_far_overlap(size, 'slice')),
    ('the same, 10 000 inserts', lambda size: one_far_overlap(size, 'insert')),
    ('the same, 10 000 overwrites', lambda size: one_far_overlap(size, 'overwrite')),
    ('98 000 items with random overlaps, 2 000 mixed edits', random_overlaps),
    ('a reel after 900 000 names, 10 000 frames', late_reel),
    ('the last of 90 000 media references, 10 000 frames', late_media),
    ('900 000 names and no reel, 10 000 frames', no_reel),
    ('a list of 900 000 names and no reel among them, 10 000 frames', no_reel_within),
    ('90 000 media references of other keys, 10 000 frames', no_media),
    ('a stack of 10 000 disabled clips, 100 000 frames', dark_stack),
    ('a nested stack of 49 000 tracks, 10 000 overwrites in one', nested_tracks),
    ('a nested stack of 49 000 clips, 200 slides next to it', lambda size: full_stack(size, 'slide')),
    ('the same, 200 trims', lambda size: full_stack(size, 'trim')),
    ('metadata of a million numbers, 60 slips', full_metadata),
    ('a clip of 20 000 markers, 200 slips', full_markers),
    ('a clip of 10 000 effects, 1 000 slips', full_effects),
    ('two inputs of eight million numbers, joined', joined_effects),
    ('20 inputs of 2 000 clips with a text of 500 bytes, joined', joined_texts),
    ('9 990 inputs, the last with 9 990 tracks, joined', many_tracks),
    ('9 990 inputs, each with a kind of its own, joined', lambda size: many_inputs(size, lambda index: f'k{index}')),
    ('99 000 clips 58 deep, transitions removed', deep_clips),
]


def measured(otio, folder, shape, size, runs):
    """The milliseconds, and the words of the run."""
    for name in os.listdir(folder):
        os.remove(os.path.join(folder, name))
    files, words = shape(size)
    for name, text in files.items():
        write(folder, name, text)
    return min(processor_time([otio, *words], folder) for _ in range(runs)), [otio, *words]


def exponent(before, after):
    return f'{math.log10(after / before):.2f}' if before > 20 else '-'


def main():
    words = argparse.ArgumentParser()
    words.add_argument('--runs', type=int, default=1)
    words.add_argument('--only', default='')
    words.add_argument('--decades', type=int, default=3, choices=(1, 2, 3))
    asked = words.parse_args()
    otio = os.path.abspath(os.environ.get('OTIO', PROGRAM))
    require(otio)
    sizes = [10, 100, 1000][3 - asked.decades:]
    print('| Shape | ' + ''.join(f'ms, a {10 ** (len(sizes) - place)}th | growth | ' for place in range(1, len(sizes))) + 'ms | peak MB |\n|---|' + '---|' * (2 * len(sizes)))
    with tempfile.TemporaryDirectory() as folder:
        for name, shape in SHAPES:
            if asked.only not in name:
                continue
            times, cells = [], []
            for size in sizes:
                time, run = measured(otio, folder, shape, size, asked.runs)
                cells += [exponent(times[-1], time)] if times else []
                cells.append(f'{time:.0f}')
                times.append(time)
            print(f'| {name} | {" | ".join(cells)} | {shown(megabytes(run, folder))} |', flush=True)


if __name__ == '__main__':
    sys.exit(main())
