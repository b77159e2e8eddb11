#!/usr/bin/env python3
"""Measures `otio convert` of OpenTimelineIO documents, in both families of schemas, next to `otio convert --to json` of the same file and the best peer of json.sh.

    bench/otio.sh [--mega N] [--runs R]     a timeline of N MB (27), medians of R runs (3)
    bench/otio.sh --worst [--runs R]        the largest legal documents, and many members, media, markers, children: each at half and at its whole size

Output goes to /dev/null. What is measured and how is that of json_layout.py.
"""
import os
import sys

from json_layout import (
    CLIPS, LIMIT, MEGA, measure, megabytes, milliseconds, output_of, rapidjson, ratio, require, run, shown, write_timeline,
)

ITEMS = 100000  # the greatest number of items of an object
GAP = '{"OTIO_SCHEMA":"Gap.1"}'
CLIP = '"OTIO_SCHEMA":"Clip.2","name":"s"'


def padded(count):
    """A track of gaps whose metadata fill the file."""
    room = LIMIT // count - len(GAP) - len(',"metadata":{"pad":""}') - 2
    gap = '{"OTIO_SCHEMA":"Gap.1","metadata":{"pad":"' + 'x' * room + '"}}'
    return '{"OTIO_SCHEMA":"Track.1","children":[' + ','.join([gap] * count) + ']}'


def listed(schema, member, value, count):
    return f'{{"OTIO_SCHEMA":"{schema}","{member}":[' + ','.join([value] * count) + ']}'


def named(before, member, value, count):
    return f'{{{before},"{member}":{{' + ','.join(f'"k{index}":{value}' for index in range(count)) + '}}'


def nested(pairs):
    return '{"OTIO_SCHEMA":"Gap.1","metadata":{"a":[' + ','.join(['[0]'] * pairs) + ']}}'


def documents():
    """Triples of a name, a maker of the text of so many parts, and the whole number of parts."""
    timeline, collection, effect = '{"OTIO_SCHEMA":"Timeline.1"}', '{"OTIO_SCHEMA":"SerializableCollection.1"}', '{"OTIO_SCHEMA":"Effect.1"}'
    external = '{"OTIO_SCHEMA":"ExternalReference.1"}'
    old = '{"OTIO_SCHEMA":"Clip.1"}'
    room = LIMIT - 200
    return [
        ('a track of gaps of 335 bytes', padded, ITEMS - 1),
        ('a stack of gaps', lambda n: listed('Stack.1', 'children', GAP, n), ITEMS - 1),
        ('a track of clips of version 1', lambda n: listed('Track.1', 'children', old, n), ITEMS - 1),
        ('a clip with other members', lambda n: '{' + CLIP + ''.join(f',"k{index}":0' for index in range(n)) + '}', 100000),
        ('a clip with media', lambda n: named(CLIP, 'media_references', external, n), 50000),
        ('a clip with markers', lambda n: listed('Clip.2', 'markers', '{"OTIO_SCHEMA":"Marker.2"}', n), 100000),
        ('metadata `[[0],[0],..]`', nested, room // 4),
        ('a clip with effects', lambda n: listed('Clip.2', 'effects', effect, n), room // (len(effect) + 1)),
        ('a clip with kept effects', lambda n: listed('Clip.2', 'effects', '0', n), room // 2),
        ('a clip with kept markers', lambda n: listed('Clip.2', 'markers', '0', n), room // 2),
        ('a collection of timelines', lambda n: listed('SerializableCollection.1', 'children', timeline, n), room // (len(timeline) + 1)),
        ('a collection of collections', lambda n: listed('SerializableCollection.1', 'children', collection, n), room // (len(collection) + 1)),
    ]


def compare(folder, otio, mega, runs):
    require(otio)
    clips = max(1, round(CLIPS * mega / MEGA))
    path = os.path.join(folder, 'timeline.otio')
    write_timeline(path, clips)
    print(f'{clips} clips, {os.path.getsize(path) / 1e6:.1f} MB; medians of {runs} runs\n')
    print('| Program | ms | peak MB | ms to `--to json` | MB to `--to json` | output MB |\n|---|---|---|---|---|---|')
    peer, missing = rapidjson(folder)
    rows = [('otio convert --to json', [otio, 'convert', '--to', 'json'])]
    rows += [(f'otio convert --family {family}', [otio, 'convert', '--family', family]) for family in '21']
    rows += [] if missing else [('C++, rapidjson', [peer])]
    base, walls = (None, None), {}
    for name, words in rows:
        words = words + ['timeline.otio']
        text = output_of(words, folder)
        if text is None:
            sys.exit(f'otio_objects.py: {name} failed')
        wall, peak = milliseconds(words, folder, runs), megabytes(words, folder)
        base, walls[name] = base if base[0] else (wall, peak), wall
        print(f'| {name} | {wall:.1f} | {shown(peak)} | {ratio(wall, base[0])} | {ratio(peak, base[1])} | {text[0] / 1e6:.1f} |', flush=True)
    families = [walls[f'otio convert --family {family}'] for family in '12']
    print(f'\n`--family 1` takes {ratio(*families)} of the time of `--family 2`')


def worst(folder, otio, runs):
    require(otio)
    print('| Document | parts | MB | status | ms | peak MB | ms to `--to json` | ms to half of it |\n|---|---|---|---|---|---|---|---|')
    path = os.path.join(folder, 'worst.otio')
    objects, json = [otio, 'convert', 'worst.otio'], [otio, 'convert', '--to', 'json', 'worst.otio']
    for name, text, parts in documents():
        half = None
        for count in (parts // 2, parts):
            with open(path, 'w') as f:
                f.write(text(count))
            status, size = run(objects, folder), os.path.getsize(path)
            wall, peak = milliseconds(objects, folder, runs), megabytes(objects, folder)
            if half is None:
                half = wall
        row = [name, str(parts), f'{size / 1e6:.1f}', str(status), f'{wall:.1f}', shown(peak), ratio(wall, milliseconds(json, folder, runs)), ratio(wall, half)]
        print('| ' + ' | '.join(row) + ' |', flush=True)


if __name__ == '__main__':
    measure(compare, worst)
