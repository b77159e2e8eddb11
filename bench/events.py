#!/usr/bin/env python3
"""Measures `otio convert --to edl` on timelines, beside reading them.

    bench/events.py [--runs R]

Four timelines: 999 clips of a second; 99 999 clips of one frame, written with `--wide`; the same with the media of a media list; and 30 000
clips with a dissolve at each cut, written with `--wide`. Beside each stands `otio frames --child 9`, which reads the timeline and judges
whether it is sound, and lists nothing, since there is no child 9. Times are processor times (user and system), the least of R runs (5), the
two programs in turn, output to /dev/null. The program is OTIO of the environment, or the one that `./otio --prove` builds.
"""
import argparse
import os
import resource
import subprocess
import tempfile

from json_layout import PROGRAM, rational, time_range

FIRST = 86400  # the record frame of a timeline's start


def clip(index, frames, medium=None):
    media = '' if medium is None else (
        f',"media_references":{{"DEFAULT_MEDIA":{{"OTIO_SCHEMA":"ExternalReference.1","target_url":"r{medium}.mov"}}}}')
    reel = '' if medium is not None else f'"metadata":{{"cmx_3600":{{"reel":"A{index % 40:03d}"}}}},'
    return f'{{"OTIO_SCHEMA":"Clip.2",{reel}"source_range":{time_range(1000 + 7 * (index % 9999), frames)}{media}}}'


def dissolve(frames):
    offset = rational(frames)
    return f'{{"OTIO_SCHEMA":"Transition.1","transition_type":"SMPTE_Dissolve","in_offset":{rational(0)},"out_offset":{offset}}}'


def timeline(items):
    start = rational(FIRST)
    track = '{"OTIO_SCHEMA":"Track.1","kind":"Video","children":[' + ','.join(items) + ']}'
    return f'{{"OTIO_SCHEMA":"Timeline.1","global_start_time":{start},"tracks":{{"OTIO_SCHEMA":"Stack.1","children":[' + track + ']}}'


def mixed(clips):
    """Clips of 24 frames with a dissolve over the first six of each but the first."""
    items = []
    for index in range(clips):
        items += [dissolve(6)] if index else []
        items.append(clip(index, 24))
    return timeline(items)


def cases():
    yield '999 clips', timeline(clip(index, 24) for index in range(999)), []
    yield '99 999 clips, wide', timeline(clip(index, 1) for index in range(99_999)), ['--wide']
    yield '99 999 clips, listed, wide', timeline(clip(index, 1, index % 40) for index in range(99_999)), ['--wide', '--media', 'm.txt']
    yield '30 000 clips, dissolves, wide', mixed(30_000), ['--wide']


def processor_time(words, folder):
    """Milliseconds of a run that ends with status 0."""
    before = resource.getrusage(resource.RUSAGE_CHILDREN)
    subprocess.run(words, cwd=folder, stdout=subprocess.DEVNULL, check=True)
    after = resource.getrusage(resource.RUSAGE_CHILDREN)
    return (after.ru_utime + after.ru_stime - before.ru_utime - before.ru_stime) * 1000


def main():
    parser = argparse.ArgumentParser()
    parser.add_argument('--runs', type=int, default=5)
    runs = parser.parse_args().runs
    program = os.path.abspath(os.environ.get('OTIO', PROGRAM))
    print(f'{"timeline":32} {"MB":>6} {"written, ms":>12} {"read, ms":>9} {"ratio":>6} {"output, MB":>11}')
    with tempfile.TemporaryDirectory() as folder:
        with open(os.path.join(folder, 'm.txt'), 'w') as f:
            f.writelines(f'R{n:03d}\t24\t0\t1000000\tr{n}.mov\n' for n in range(40))
        for name, text, options in cases():
            with open(os.path.join(folder, 't.otio'), 'w') as f:
                f.write(text)
            write = [program, 'convert', '--to', 'edl', *options, 't.otio']
            read = [program, 'frames', '--child', '9', 't.otio']
            sent = len(subprocess.run(write, cwd=folder, stdout=subprocess.PIPE, check=True).stdout)
            written, taken = [], []
            for _ in range(runs):
                written.append(processor_time(write, folder))
                taken.append(processor_time(read, folder))
            print(f'{name:32} {len(text) / 1e6:6.1f} {min(written):12.1f} {min(taken):9.1f} {min(written) / min(taken):6.2f} {sent / 1e6:11.2f}')


if __name__ == '__main__':
    main()
