#!/usr/bin/env python3
"""Measures `otio pull --handles 10000` on generated timelines.

    bench/pull.py [--runs R] [--clips N,N,N] [--record N,N,N] [--only WORD]

Four tables: how the time grows with the record frames (99 000 clips of 10, 33 and 100 frames each), with the clips (10 000, 30 000 and 99 000
of 33 frames each), and with the tracks that are nested in one another (1, 10 and 30 around one clip of 9 900 000 frames); and timelines of
other shapes: a dissolve at each cut, a key of its own for each clip, clips of one key whose available ranges are apart, one clip at twice its
speed, where each frame is a span of its own, and one clip in 30 nested stacks, or in 30 nested tracks at speeds of their own.

Output goes to /dev/null. Times are processor times (user and system), the least of R runs (3), next to those of `otio stat` of the same file,
which reads the timeline and validates it as `pull` does. The program is OTIO of the environment, or the one that `./otio` builds. --only takes the tables whose title has the word.
"""
import argparse
import os
import resource
import sys
import tempfile

from json_layout import PROGRAM, megabytes, ratio, rational, require, run, shown, time_range

LONG = 9_900_000  # frames of one clip, as many as are listed in all


def clip(start, length, url, available=None, more=''):
    media = f'"target_url":"{url}"' + (f',"available_range":{time_range(*available)}' if available else '')
    return (f'{{"OTIO_SCHEMA":"Clip.2","source_range":{time_range(start, length)}{more},'
            f'"media_references":{{"DEFAULT_MEDIA":{{"OTIO_SCHEMA":"ExternalReference.1",{media}}}}}}}')


def track(items):
    return '{"OTIO_SCHEMA":"Track.1","children":[' + ','.join(items) + ']}'


def timeline(tracks):
    return '{"OTIO_SCHEMA":"Timeline.1","tracks":{"OTIO_SCHEMA":"Stack.1","children":[' + ','.join(tracks) + ']}}'


def plain(clips, length):
    """A track of clips of 40 media."""
    return timeline([track([clip(7 * index, length, f'r{index % 40:02d}.mov') for index in range(clips)])])


def crossed(clips, length):
    """A track of clips with a dissolve at each cut."""
    mix = f'{{"OTIO_SCHEMA":"Transition.1","in_offset":{rational(6)},"out_offset":{rational(6)}}}'
    items = []
    for index in range(clips):
        items += [mix] if index else []
        items.append(clip(7 * index, length, f'r{index % 40:02d}.mov'))
    return timeline([track(items)])


def keys(clips, length):
    """A track of clips, each of media of its own."""
    return timeline([track([clip(7 * index, length, f'{index:05d}.mov') for index in range(clips)])])


def ranges(clips, length):
    """A track of clips of one medium, whose available ranges neither meet nor touch."""
    return timeline([track([clip(50 * index + 5, length, 'a.mov', (50 * index, 45)) for index in range(clips)])])


def fast(length):
    """One clip at twice its speed."""
    speed = ',"effects":[{"OTIO_SCHEMA":"LinearTimeWarp.1","time_scalar":2.0}]'
    return timeline([track([clip(0, length, 'a.mov', more=speed)])])


def nested(depth, length):
    """One clip below so many tracks, each in the one before."""
    item = clip(0, length, 'a.mov')
    for _ in range(depth):
        item = track([item])
    return timeline([item])


def piled(depth, length):
    """One clip below so many stacks, each in the one before."""
    item = clip(0, length, 'a.mov')
    for _ in range(depth):
        item = f'{{"OTIO_SCHEMA":"Stack.1","children":[{item}]}}'
    return timeline([item])


def sped(depth, length):
    """One clip below so many tracks, each at a speed of its own."""
    item = clip(0, length, 'a.mov')
    for _ in range(depth):
        speed = '"effects":[{"OTIO_SCHEMA":"LinearTimeWarp.1","time_scalar":0.999999}]'
        item = f'{{"OTIO_SCHEMA":"Track.1","children":[{item}],{speed}}}'
    return timeline([item])


def processor_time(words, folder):
    """Milliseconds of user and system time."""
    before = resource.getrusage(resource.RUSAGE_CHILDREN)
    status = run(words, folder)
    after = resource.getrusage(resource.RUSAGE_CHILDREN)
    if status != 0:
        sys.exit(f'pull.py: {" ".join(words)} ended with status {status}')
    return 1000 * (after.ru_utime - before.ru_utime + after.ru_stime - before.ru_stime)


def measure(otio, folder, text, runs):
    """Milliseconds of `pull` and of `stat`, and the most memory of `pull`."""
    with open(os.path.join(folder, 'timeline.otio'), 'w') as f:
        f.write(text)
    pull, stat = [otio, 'pull', '--handles', '10000', 'timeline.otio'], [otio, 'stat', 'timeline.otio']
    times = [(processor_time(pull, folder), processor_time(stat, folder)) for _ in range(runs)]
    return min(one for one, _ in times), min(other for _, other in times), megabytes(pull, folder)


def table(otio, folder, title, rows, runs):
    """A row for each timeline: its name, how many record frames it has, and its text."""
    print(f'\n{title}:\n\n| | record frames | MB read | ms | ms, `otio stat` | ms beyond it | to the first | peak MB |\n|---|---|---|---|---|---|---|---|')
    base = None
    for name, frames, text in rows:
        pull, stat, peak = measure(otio, folder, text, runs)
        base = base or pull - stat
        print(f'| {name} | {frames} | {len(text) / 1e6:.1f} | {pull:.0f} | {stat:.0f} | {pull - stat:.0f} | {ratio(pull - stat, base)} | {shown(peak)} |', flush=True)


def tables(clips, lengths):
    most, middle = max(clips), sorted(lengths)[len(lengths) // 2]
    yield 'By record frames', ((f'{most} clips of {n} frames', most * n, plain(most, n)) for n in lengths)
    yield 'By clips', ((f'{n} clips of {middle} frames', n * middle, plain(n, middle)) for n in clips)
    yield 'By nested tracks', ((f'{n} around one clip', LONG, nested(n, LONG)) for n in (1, 10, 30))
    yield 'Other shapes', iter((
        (f'{most // 2} clips, a dissolve at each cut', most // 2 * middle, crossed(most // 2, middle)),
        (f'{most} keys', most * middle, keys(most, middle)),
        (f'{most // 2} available ranges of one key', most // 2 * middle, ranges(most // 2, middle)),
        ('each frame a span of its own', LONG, fast(LONG)),
        ('30 stacks around one clip', LONG, piled(30, LONG)),
        ('30 tracks, each at a speed of its own', LONG, sped(30, LONG)),
    ))


def numbers(text):
    return [int(part) for part in text.split(',')]


def main():
    words = argparse.ArgumentParser()
    words.add_argument('--runs', type=int, default=3)
    words.add_argument('--clips', type=numbers, default=[10000, 30000, 99000], help='clips of a track')
    words.add_argument('--record', type=numbers, default=[10, 33, 100], help='frames of a clip')
    words.add_argument('--only', default='', help='a word of the titles')
    asked = words.parse_args()
    otio = os.path.abspath(os.environ.get('OTIO', PROGRAM))
    require(otio)
    with tempfile.TemporaryDirectory() as folder:
        for title, rows in tables(asked.clips, asked.record):
            if asked.only in title:
                table(otio, folder, title, rows, asked.runs)


if __name__ == '__main__':
    main()
