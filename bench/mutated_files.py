#!/usr/bin/env python3
"""Changes the files of the examples at random, and holds how the program ends on them.

    bench/mutated_files.py [--changes N] [--seed S] [--only WORD]

Each file of the examples below is changed N times (500): cut, a byte flipped, a stretch taken out, doubled or moved, a byte put in, a number or word
set to an extreme one; of timelines mostly values of their JSON; often several at once. Each is then read by each command that reads such files. A run
has to be done and tell nothing, or be refused (status 1) with no output and one line `otio: NAME: CODE WORD`, or that with ` at DETAIL`: no other
status, no crash, and no run above ten seconds. What `convert` and `edit` write as timeline or JSON has to be written the same when it is read again.

The table has how many runs were done and how many refused, and then how often each code came. The status is 1 where a run ended otherwise; the file of
such a run is kept in the folder for temporary files. The same seed (1) makes the same changes. The program is OTIO of the environment, or the one that
`./otio --prove` builds.
"""
import argparse
import collections
import copy
import json
import os
import random
import re
import shutil
import subprocess
import sys
import tempfile

from json_layout import HERE, PROGRAM, require

EXAMPLES = os.path.join(HERE, '..', 'examples')
MEDIA, SCRIPT, CUT, STORM, REEL = (f'night_ferry_{name}' for name in ('media.txt', 'edits.txt', 'cut.otio', 'storm.otio', 'reel_1.edl'))
MESSAGE = re.compile(rb'otio: [^\n]*: ([A-Z][0-9]{1,2}) [A-Z][A-Za-z0-9]*( at [^\n]*)?\n')
EXTREME = ['0', '-1', '1', '0.5', '-0.0', '1e-9', '1e999', '1e9999', '24000000', '24000001', '999999999999999999999999999999999999999', '29.97', '29.5',
           '705600000000', '4294967296', '18446744073709551616', '-170141183460469231731687303715884105728', 'null', 'true', '""', '[]', '{}', '"\\ud800"',
           '00:00:59:24', '23:59:59:23', '24:00:00:00', '00:01:00;00', '999', '1000', 'BL', 'undo', 'redo', '0/0', '4294967295']
SINGLE = [b'"', b'{', b'}', b'[', b']', b',', b':', b'\n', b'\r\n', b'\t', b' ', b'#', b'*', b'\\', b'\0', b'\xff', b'\xc3\xa9']
VALUES = [None, True, '', [], {}, 0, -1, 0.5, 1e-7, 1e9, 24_000_000, 24_000_001, 29.97, 29.5, 705_600_000_000, 2**127, 10**38, 1000, -1000.5, 'A1']
SCHEMAS = ['Clip.1', 'Clip.2', 'Clip.3', 'Gap.1', 'Track.1', 'Stack.1', 'Transition.1', 'Timeline.1', 'SerializableCollection.1', 'Sequence.1', 'LinearTimeWarp.1',
           'FreezeFrame.1', 'MissingReference.1', 'ExternalReference.1', 'GeneratorReference.1', 'Marker.1', 'Foo.1', 'Clip', 'SMPTE_Wipe_001', 'Audio', 'Video']
FILES = {
    CUT: ['convert FILE', 'convert --to json FILE', 'stat FILE', 'frames --count 30 FILE', f'convert --to edl --media {MEDIA} FILE', f'cat FILE {STORM}',
          'tool --list-tracks --list-clips --list-media --stats FILE', 'tool --remove-transitions --flatten all --trim 86401,86500 FILE',
          f'edit --media {MEDIA} --script {SCRIPT} FILE'],
    STORM: ['convert FILE', f'convert --to edl --media {MEDIA} FILE', 'frames --count 60 FILE', f'tool --stack --remove-transitions FILE {CUT}',
            'tool --remove-transitions --flatten video --keep-flattened-tracks FILE'],
    'night_ferry_old.otio': ['convert FILE', 'convert --to json FILE', 'stat FILE'],
    REEL: ['convert --to edl --from edl FILE', f'convert --from edl --media {MEDIA} FILE', 'convert --from edl FILE', 'convert --from edl --to edl --wide FILE'],
    'night_ferry_reel_2.edl': ['convert --to edl --from edl --rate 29.97 FILE', 'convert --from edl --rate 29.97 FILE'],
    MEDIA: [f'convert --media FILE {REEL}', f'convert --to edl --media FILE {STORM}', f'edit --script {SCRIPT} --media FILE {CUT}'],
    SCRIPT: [f'edit --media {MEDIA} --script FILE {CUT}', f'edit --script FILE {CUT}'],
}


def changed(draw, bytes):
    """The bytes with one change."""
    at = draw.randrange(len(bytes) + 1)
    behind = min(len(bytes), at + draw.choice((1, 2, 5, 20, 200)))
    kind = draw.randrange(8)
    if kind == 0:
        return bytes[:at]
    if kind == 1:
        return bytes[:at] + bytes[behind:]
    if kind == 2:
        return bytes[:behind] + bytes[at:]
    if kind == 3:
        return bytes[:at] + draw.choice(SINGLE) + bytes[at:]
    if kind == 4 and at < len(bytes):
        return bytes[:at] + (bytes[at] ^ 1 << draw.randrange(8)).to_bytes(1, 'big') + bytes[at + 1:]
    if kind == 5:
        to = draw.randrange(len(bytes) + 1)
        return bytes[:to] + bytes[at:behind] + bytes[to:]
    places = list(re.finditer(rb'-?[0-9][0-9.:;eE+-]*|"[^"\n]*"|[A-Za-z_]+', bytes))
    if not places:
        return bytes
    place = draw.choice(places)
    put = draw.choice(places)[0] if kind == 6 else draw.choice(EXTREME).encode()
    return bytes[:place.start()] + put + bytes[place.end():]


def spots(value):
    """Each place in a JSON value, as the list or object and the index or name in it."""
    for index in range(len(value)) if isinstance(value, list) else list(value) if isinstance(value, dict) else ():
        yield value, index
        yield from spots(value[index])


def changed_tree(draw, bytes):
    """The bytes of a JSON text with one value changed: taken out, doubled, set to an extreme one or to one of another place."""
    tree = json.loads(bytes)
    places = list(spots(tree))
    if not places:
        return bytes
    parent, index = draw.choice(places)
    other, at = draw.choice(places)
    kind = draw.randrange(5)
    if kind == 0:
        del parent[index]
    elif kind == 1 and isinstance(parent, list):
        parent.insert(draw.randrange(len(parent) + 1), copy.deepcopy(parent[index]))
    elif kind == 2 and isinstance(parent[index], str):
        parent[index] = draw.choice(SCHEMAS)
    elif kind == 3:
        parent[index] = copy.deepcopy(other[at])
    else:
        parent[index] = draw.choice(VALUES)
    return json.dumps(tree, ensure_ascii=False).encode()


def changed_whole(draw, bytes, name):
    """The bytes with one or some changes, those of JSON texts mostly of values."""
    is_tree = name.endswith('.otio') and draw.random() < 0.8
    for _ in range(draw.choice((1, 1, 1, 1, 2, 3))):
        bytes = changed_tree(draw, bytes) if is_tree else changed(draw, bytes)
    return bytes


def run_once(words, folder):
    """Status, output and message; the status is none where the run wasn't at its end after ten seconds."""
    try:
        ended = subprocess.run(words, cwd=folder, stdin=subprocess.DEVNULL, capture_output=True, timeout=10)
    except subprocess.TimeoutExpired:
        return None, b'', b''
    return ended.returncode, ended.stdout, ended.stderr


def fault_of(words, folder, answer):
    """What is wrong with an answer; none where nothing is."""
    status, sent, told = answer
    if status == 1:
        return None if sent == b'' and MESSAGE.fullmatch(told) else f'refused with {told} and {len(sent)} bytes of output'
    if status != 0 or told != b'':
        return f'status {status}, {told}'
    if words[1] in ('convert', 'edit') and '--to edl' not in ' '.join(words):
        with open(os.path.join(folder, 'again.otio'), 'wb') as file:
            file.write(sent)
        again = run_once([words[0], 'convert', *(['--to', 'json'] if 'json' in words else []), 'again.otio'], folder)
        return None if again == (0, sent, b'') else f'read again: status {again[0]}, {again[2]}'
    return None


def main():
    asked = argparse.ArgumentParser()
    asked.add_argument('--changes', type=int, default=500)
    asked.add_argument('--seed', type=int, default=1)
    asked.add_argument('--only', default='')
    asked = asked.parse_args()
    otio = os.path.abspath(os.environ.get('OTIO', PROGRAM))
    require(otio)
    codes, others, runs = collections.Counter(), 0, 0
    print('| file | command lines | runs | done | refused |\n|---|---|---|---|---|')
    with tempfile.TemporaryDirectory() as folder:
        for name in FILES:
            shutil.copy(os.path.join(EXAMPLES, name), folder)
        for name, lines in FILES.items():
            draw, statuses = random.Random(f'{asked.seed} {name}'), collections.Counter()
            with open(os.path.join(EXAMPLES, name), 'rb') as file:
                whole = file.read()
            for number in range(asked.changes if asked.only in name else 0):
                bytes = changed_whole(draw, whole, name)
                with open(os.path.join(folder, 'changed'), 'wb') as file:
                    file.write(bytes)
                for line in lines:
                    words = [otio, *line.replace('FILE', 'changed').split()]
                    answer = run_once(words, folder)
                    statuses[answer[0]] += 1
                    found = MESSAGE.fullmatch(answer[2])
                    codes[found[1].decode() if found else ''] += 1
                    fault = fault_of(words, folder, answer)
                    if fault is not None:
                        others += 1
                        kept = os.path.join(tempfile.gettempdir(), f'changed.{asked.seed}.{number}.{name}')
                        shutil.copy(os.path.join(folder, 'changed'), kept)
                        print(f'otherwise: {line}, {kept}: {fault}', flush=True)
            runs += sum(statuses.values())
            print(f'| {name} | {len(lines)} | {sum(statuses.values())} | {statuses[0]} | {statuses[1]} |', flush=True)
    print('\n' + ', '.join(f'{code} {count}' for code, count in sorted(codes.items()) if code))
    print(f'\n{runs} runs, {others} of them ended otherwise.')
    sys.exit(1 if others else 0)


if __name__ == '__main__':
    main()
