#!/usr/bin/env python3
"""Measures `otio convert --to json` beside other programs that lay out JSON with four spaces a level.

    bench/json.sh [--mega N] [--runs R]     a timeline of N MB (27), medians of R runs (3)
    bench/json.sh --worst [--runs R]        the worst legal files of 32 MiB and a large faulty one, otio alone

Output goes to /dev/null. Times are wall times; the peak memory is that of one more run under /usr/bin/time, since a child that
this script starts itself would be charged with the memory of Python. One further run compares the bytes with those of otio.
The program is OTIO of the environment, or the one that `./otio --prove` builds.
"""
import argparse
import hashlib
import os
import random
import shutil
import statistics
import subprocess
import sys
import tempfile
import time

HERE = os.path.dirname(os.path.abspath(__file__))
PEERS = os.path.join(HERE, 'peers')
PROGRAM = os.path.join(HERE, '..', 'crates', 'otio_main', 'out', 'otio_main')
CLIPS = 24000  # of a timeline of 27 MB
MEGA = 27
LIMIT = 33554432  # bytes of the longest text that otio takes
COLORS = ['RED', 'GREEN', 'BLUE', 'CYAN', 'MAGENTA']
REMARKS = [
    r'says \"not tonight\" off the board',
    r'slate\tend board\nboom in shot, top left',
    'Überblendung am Kai, Fähre fährt aus',
    '夜の渡し船、二回目',
    r'C:\\rushes\\day_04, bell \u0007 on the track',
    r'\u00e9t\u00e9 \ud83c\udfac, clapper twice',
    'plate for the skyline, clean',
]


def rational(value):
    return f'{{"OTIO_SCHEMA":"RationalTime.1","rate":24.0,"value":{value}.0}}'


def time_range(start, length):
    return f'{{"OTIO_SCHEMA":"TimeRange.1","duration":{rational(length)},"start_time":{rational(start)}}}'


def numerals(chance, count):
    return '[' + ','.join(str(round(chance.uniform(-1, 2), 4)) for _ in range(count)) + ']'


def clip(chance, index):
    start, length = chance.randrange(86400, 2000000), chance.randrange(12, 240)
    name = f'SH{index // 10:04d}_{index % 10}'
    keys = ','.join(f'[{start + 6 * key},{round(chance.random(), 3)}]' for key in range(2))
    metadata = (
        f'{{"slate":{{"scene":"{chance.randrange(1, 140)}A","take":{chance.randrange(1, 20)},"note":"{chance.choice(REMARKS)}"}},'
        f'"cdl":{{"slope":{numerals(chance, 3)},"sat":1}},'
        f'"reframe":[{keys}],"flags":[true,null],"notes":[]}}'
    )
    marker = (
        f'{{"OTIO_SCHEMA":"Marker.2","metadata":{{}},"name":"{index}","color":"{chance.choice(COLORS)}",'
        f'"marked_range":{time_range(start + length // 2, 1)}}}'
    )
    media = (
        f'{{"OTIO_SCHEMA":"ExternalReference.1","metadata":{{}},"name":"","available_range":{time_range(start - 24, length + 48)},'
        f'"target_url":"file:///reels/{index % 40:02d}/{name}.mov"}}'
    )
    return (
        f'{{"OTIO_SCHEMA":"Clip.2","metadata":{metadata},"name":"{name}","source_range":{time_range(start, length)},"effects":[],'
        f'"markers":[{marker}],"enabled":true,"media_references":{{"DEFAULT_MEDIA":{media}}},'
        f'"active_media_reference_key":"DEFAULT_MEDIA"}}'
    )


def write_timeline(path, clips):
    """The same bytes for the same number of clips."""
    chance = random.Random(24)
    with open(path, 'w', encoding='utf-8') as f:
        f.write(f'{{"OTIO_SCHEMA":"Timeline.1","metadata":{{}},"name":"Night Ferry","global_start_time":{rational(86400)},')
        f.write('"tracks":{"OTIO_SCHEMA":"Stack.1","metadata":{},"name":"tracks","source_range":null,"children":[')
        f.write('{"OTIO_SCHEMA":"Track.1","metadata":{},"name":"V1","kind":"Video","children":[')
        for index in range(clips):
            f.write((',' if index else '') + clip(chance, index))
        f.write(']}]}}')


def worst_texts():
    """Pairs of a name and a maker of its text; all but the last are legal."""
    members = (f'"{index * 387420489 % 1000000:028d}":0' for index in range(1000000))
    return [
        ('`[0,0,..]`', lambda: '[' + '0,' * ((LIMIT - 1) // 2 - 1) + '0]'),
        ('`[[],[],..]`', lambda: '[' + '[],' * ((LIMIT - 1) // 3 - 1) + '[]]'),
        ('`[[0],[0],..]`', lambda: '[' + '[0],' * ((LIMIT - 1) // 4 - 1) + '[0]]'),
        ('one string', lambda: '"' + 'a' * (LIMIT - 2) + '"'),
        ('one object of a million names', lambda: '{' + ','.join(members) + '}'),
        ('a fault in byte 5', lambda: '[0,0,?' + '0,' * (LIMIT // 2 - 4) + '0]'),
    ]


def run(words, folder):
    """The status, with the output to /dev/null."""
    return subprocess.run(words, cwd=folder, stdout=subprocess.DEVNULL, stderr=subprocess.DEVNULL).returncode


def milliseconds(words, folder, runs):
    times = []
    for _ in range(runs):
        begun = time.perf_counter()
        run(words, folder)
        times.append(time.perf_counter() - begun)
    return statistics.median(times) * 1000


def megabytes(words, folder):
    """Peak memory in MB; none where /usr/bin/time isn't installed."""
    if not os.access('/usr/bin/time', os.X_OK):
        return None
    note = os.path.join(folder, 'peak')
    run(['/usr/bin/time', '-q', '-o', note, '-f', '%M'] + words, folder)
    with open(note) as f:
        return int(f.read()) * 1024 / 1e6


def output_of(words, folder):
    """The length and the digest of what is written; none where the program failed."""
    length, digest = 0, hashlib.sha256()
    with subprocess.Popen(words, cwd=folder, stdout=subprocess.PIPE, stderr=subprocess.DEVNULL) as child:
        while piece := child.stdout.read(1 << 20):
            length += len(piece)
            digest.update(piece)
    return (length, digest.digest()) if child.returncode == 0 else None


def built(source, words, folder, program):
    """The path of a peer that is built by these words, or a word why there is none."""
    if not shutil.which(words[0]):
        return None, f'no {words[0]}'
    log = subprocess.run(words, cwd=folder, stdout=subprocess.PIPE, stderr=subprocess.STDOUT, text=True)
    if log.returncode == 0:
        return program, None
    return None, f'{source} was not built: ' + next((line for line in log.stdout.splitlines() if 'error' in line), '')


def serde(folder):
    place = os.path.join(folder, 'serde')
    shutil.copytree(os.path.join(PEERS, 'serde'), place)
    words = ['cargo', 'build', '--quiet', '--release', '--offline', '--jobs', '1', '--target-dir', 'target']
    return built('peers/serde', words, place, os.path.join(place, 'target', 'release', 'serde_peer'))


def rapidjson(folder):
    program = os.path.join(folder, 'rapidjson_peer')
    words = ['g++', '-O3', '-DNDEBUG', os.path.join(PEERS, 'rapidjson.cpp'), '-o', program]
    return built('peers/rapidjson.cpp', words, folder, program)


def installed(name):
    path = shutil.which(name)
    return path, None if path else 'not installed'


def programs(folder, otio):
    """Triples of a name, the words before the file, and a word why the program is left out."""
    rows = [('otio', [otio, 'convert', '--to', 'json'], None if os.access(otio, os.X_OK) else 'not built')]
    for name, (path, missing), words in [
        ('C++, rapidjson', rapidjson(folder), []),
        ('Rust, serde_json', serde(folder), []),
        ('node', installed('node'), [os.path.join(PEERS, 'node.js')]),
        ('jq', installed('jq'), ['--indent', '4', '.']),
        ('python3 -m json.tool', (sys.executable, None), ['-m', 'json.tool', '--indent', '4', '--no-ensure-ascii']),
        ('cat', installed('cat'), []),
    ]:
        rows.append((name, [path] + words, missing))
    return rows


def ratio(value, base):
    return f'{value / base:.2f}' if value is not None and base else '-'


def shown(value):
    return '-' if value is None else f'{value:.1f}'


def compare(folder, otio, mega, runs):
    path = os.path.join(folder, 'timeline.otio')
    clips = max(1, round(CLIPS * mega / MEGA))
    write_timeline(path, clips)
    print(f'{clips} clips, {os.path.getsize(path) / 1e6:.1f} MB; medians of {runs} runs\n')
    print('| Program | ms | peak MB | ms to otio | MB to otio | output MB | bytes of otio |\n|---|---|---|---|---|---|---|')
    base, left_out = (None, None, None), []
    for name, words, missing in programs(folder, otio):
        words = words + ['timeline.otio']
        text = None if missing else output_of(words, folder)
        if text is None:
            left_out.append(f'{name} ({missing or "it failed"})')
            continue
        wall, peak = milliseconds(words, folder, runs), megabytes(words, folder)
        if name == 'otio':
            base = (wall, peak, text)
        same = '-' if base[2] is None else 'same' if text == base[2] else 'others'
        print(f'| {name} | {wall:.1f} | {shown(peak)} | {ratio(wall, base[0])} | {ratio(peak, base[1])} | {text[0] / 1e6:.1f} | {same} |', flush=True)
    if left_out:
        print('\nLeft out: ' + '; '.join(left_out) + '.')


def require(otio):
    """Ends the script where there is no such program."""
    if not os.access(otio, os.X_OK):
        sys.exit(f'{otio} is not built')


def worst(folder, otio, runs):
    require(otio)
    print('| File | MB | status | ms | peak MB |\n|---|---|---|---|---|')
    path, words = os.path.join(folder, 'worst.otio'), [otio, 'convert', '--to', 'json', 'worst.otio']
    for name, text in worst_texts():
        with open(path, 'w') as f:
            f.write(text())
        status, size = run(words, folder), os.path.getsize(path)
        wall, peak = milliseconds(words, folder, runs), megabytes(words, folder)
        print(f'| {name} | {size / 1e6:.1f} | {status} | {wall:.1f} | {shown(peak)} |', flush=True)


def measure(compare, worst):
    """Reads the command line and measures in a fresh folder."""
    words = argparse.ArgumentParser()
    words.add_argument('--mega', type=float, default=MEGA, help='MB of the timeline, at most 33')
    words.add_argument('--runs', type=int, default=3)
    words.add_argument('--worst', action='store_true')
    asked = words.parse_args()
    otio = os.path.abspath(os.environ.get('OTIO', PROGRAM))
    with tempfile.TemporaryDirectory() as folder:
        if asked.worst:
            worst(folder, otio, asked.runs)
        else:
            compare(folder, otio, asked.mega, asked.runs)


if __name__ == '__main__':
    measure(compare, worst)
