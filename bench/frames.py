#!/usr/bin/env python3
"""Measures `otio frames` on generated timelines.

    bench/frames.py [--runs R] [--clips N,N,..] [--frames N,N,..] [--short]

Four tables: how the time of a frame grows with the clips of a track (250, 1000 and 4000 clips of 24 frames; the last 1000 frames, which stand
behind all others), how it grows with the frames that are asked for (1000, 4000 and 16 000 from the first on, over 1000 clips), and all
frames of these tracks and of a timeline of two tracks with a dissolve at each cut and nested stacks, beside `otio convert` of the same file;
and all frames of tracks of 10 000, 30 000 and 99 000 clips of one frame, and of tracks with a dissolve at each cut (--short: this one alone).

Output goes to /dev/null. Times are wall times, medians of R runs (3). The time of a frame is what more frames take over a single one, so reading
the file and judging the timeline aren't in it. The program is OTIO of the environment, or the one that `./otio --prove` builds.
"""
import argparse
import os
import sys
import tempfile

from json_layout import PROGRAM, megabytes, milliseconds, output_of, ratio, rational, require, shown, time_range

FIRST = 86400  # the record frame of a timeline's start
LENGTH = 24  # frames of a clip
BEHIND = 1000  # frames asked for at the end of a track
OFFSET = 6  # frames of a dissolve on each side of its cut


def clip(index, speed=None):
    effects = '' if speed is None else f'"effects":[{{"OTIO_SCHEMA":"LinearTimeWarp.1","time_scalar":{speed}}}],'
    media = f'{{"OTIO_SCHEMA":"ExternalReference.1","target_url":"r{index % 40:02d}.mov","available_range":{time_range(0, 100000)}}}'
    return (
        f'{{"OTIO_SCHEMA":"Clip.2","name":"SH{index:05d}","source_range":{time_range(1000 + 7 * index, LENGTH)},{effects}'
        f'"media_references":{{"DEFAULT_MEDIA":{media}}},"active_media_reference_key":"DEFAULT_MEDIA"}}'
    )


def dissolve():
    offset = rational(OFFSET)
    return f'{{"OTIO_SCHEMA":"Transition.1","transition_type":"SMPTE_Dissolve","in_offset":{offset},"out_offset":{offset}}}'


def track(items, kind='Video'):
    return f'{{"OTIO_SCHEMA":"Track.1","kind":"{kind}","children":[' + ','.join(items) + ']}'


def stack(index, depth):
    """A stack at speed 1.5 of two tracks of two clips and a dissolve, the upper one behind a gap, with one more such stack in it, and so on."""
    inner = [clip(index + 1, 0.5)] if depth == 1 else [stack(index + 2, depth - 1)]
    gap = f'{{"OTIO_SCHEMA":"Gap.1","source_range":{time_range(0, LENGTH + OFFSET)}}}'
    tracks = [track([clip(index), dissolve(), clip(index + 3)]), track([gap] + inner)]
    speed = '"effects":[{"OTIO_SCHEMA":"LinearTimeWarp.1","time_scalar":1.5}]'
    return f'{{"OTIO_SCHEMA":"Stack.1","source_range":{time_range(0, LENGTH)},{speed},"children":[' + ','.join(tracks) + ']}'


def timeline(tracks):
    start = rational(FIRST)
    return f'{{"OTIO_SCHEMA":"Timeline.1","global_start_time":{start},"tracks":{{"OTIO_SCHEMA":"Stack.1","children":[' + ','.join(tracks) + ']}}'


def plain(clips):
    """A track of clips that follow one another."""
    return timeline([track([clip(index) for index in range(clips)])])


def mixed(shots):
    """Two tracks of so many shots with a dissolve at each cut; each tenth shot is a stack in three levels."""
    tracks = []
    for lane in range(2):
        items = []
        for index in range(shots):
            items += [dissolve()] if index else []
            items.append(stack(index, 3) if index % 10 == 9 else clip(index + lane))
        tracks.append(track(items))
    return timeline(tracks)


def short(clips, dissolves):
    """A track of clips of one frame, with a dissolve of no length on its left side and one frame on its right at each cut, where that is asked for."""
    mix = f'{{"OTIO_SCHEMA":"Transition.1","transition_type":"SMPTE_Dissolve","in_offset":{rational(0)},"out_offset":{rational(1)}}}'
    items = []
    for index in range(clips):
        items += [mix] if dissolves and index else []
        items.append(f'{{"OTIO_SCHEMA":"Clip.2","name":"s{index}","source_range":{time_range(index, 1)}}}')
    return timeline([track(items)])


def write(folder, text):
    with open(os.path.join(folder, 'timeline.otio'), 'w') as f:
        f.write(text)
    return text.count('"Clip.2"') + text.count('"Gap.1"') + text.count('"Stack.1"') - 1 + text.count('"Track.1"') + text.count('"Transition.1"')


def asking(otio, start, count):
    return [otio, 'frames', '--start', str(start), '--count', str(count), 'timeline.otio']


def frame_cost(otio, folder, start, count, runs):
    """Milliseconds of one frame and of so many, and microseconds of each frame more than one."""
    one, many = (milliseconds(asking(otio, start, n), folder, runs) for n in (1, count))
    return one, many, max(many - one, 0) * 1000 / (count - 1)


def by_clips(folder, otio, numbers, runs):
    print(f'The last {BEHIND} frames of a track:\n')
    print(f'| clips | ms, 1 frame | ms, {BEHIND} frames | us a frame | to {numbers[0]} clips |\n|---|---|---|---|---|')
    base = None
    for clips in numbers:
        write(folder, plain(clips))
        one, many, cost = frame_cost(otio, folder, FIRST + LENGTH * clips - BEHIND, BEHIND, runs)
        base = base or cost
        print(f'| {clips} | {one:.1f} | {many:.1f} | {cost:.2f} | {ratio(cost, base)} |', flush=True)


def by_frames(folder, otio, clips, numbers, runs):
    print(f'\nThe first frames of a track of {clips} clips:\n')
    print(f'| frames | ms | us a frame | to {numbers[0]} frames |\n|---|---|---|---|')
    write(folder, plain(clips))
    base = None
    for frames in numbers:
        _, many, cost = frame_cost(otio, folder, FIRST, frames, runs)
        base = base or cost
        print(f'| {frames} | {many:.1f} | {cost:.2f} | {ratio(cost, base)} |', flush=True)


def in_all(folder, otio, numbers, runs):
    print('\nAll frames:\n')
    print('| Timeline | items | MB read | MB written | ms | peak MB | ms to `otio convert` |\n|---|---|---|---|---|---|---|')
    shots = numbers[len(numbers) // 2]
    texts = [(f'{clips} clips', plain(clips)) for clips in numbers] + [(f'two tracks of {shots} shots, dissolves, nested stacks', mixed(shots))]
    for name, text in texts:
        items = write(folder, text)
        words = [otio, 'frames', 'timeline.otio']
        written = output_of(words, folder)
        if written is None:
            sys.exit(f'frames.py: {name}: {otio} failed')
        wall, peak = milliseconds(words, folder, runs), megabytes(words, folder)
        convert = milliseconds([otio, 'convert', 'timeline.otio'], folder, runs)
        print(f'| {name} | {items} | {len(text) / 1e6:.1f} | {written[0] / 1e6:.1f} | {wall:.1f} | {shown(peak)} | {ratio(wall, convert)} |', flush=True)


def of_short(folder, otio, runs):
    print('\nAll frames of a track of clips of one frame:\n')
    print('| clips | dissolves | ms | ms of one frame | us a frame | to 10000 clips |\n|---|---|---|---|---|---|')
    for dissolves, many in ((False, 99000), (True, 49900)):
        base = None
        for clips in (10000, 30000, many):
            write(folder, short(clips, dissolves))
            one, whole, cost = frame_cost(otio, folder, FIRST, clips, runs)
            base = base or cost
            print(f'| {clips} | {clips - 1 if dissolves else 0} | {whole:.1f} | {one:.1f} | {cost:.2f} | {ratio(cost, base)} |', flush=True)


def numbers(text):
    return [int(part) for part in text.split(',')]


def main():
    words = argparse.ArgumentParser()
    words.add_argument('--runs', type=int, default=3)
    words.add_argument('--clips', type=numbers, default=[250, 1000, 4000], help='clips of a track, at least 42 and at most 4166')
    words.add_argument('--frames', type=numbers, default=[1000, 4000, 16000], help='frames that are asked for, at least 2')
    words.add_argument('--short', action='store_true', help='the table of clips of one frame alone')
    asked = words.parse_args()
    otio = os.path.abspath(os.environ.get('OTIO', PROGRAM))
    require(otio)
    with tempfile.TemporaryDirectory() as folder:
        if not asked.short:
            by_clips(folder, otio, asked.clips, asked.runs)
            by_frames(folder, otio, asked.clips[len(asked.clips) // 2], asked.frames, asked.runs)
            in_all(folder, otio, asked.clips, asked.runs)
        of_short(folder, otio, asked.runs)


if __name__ == '__main__':
    main()
