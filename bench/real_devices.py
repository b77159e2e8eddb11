#!/usr/bin/env python3
"""Runs the program over devices of the system that fail, and holds its status and its message.

    bench/real_devices.py

Each row is a line of the shell with the program's name in $OTIO: streams that are closed, full or broken off, folders and missing files in place of files,
files without an end, names that are too long or no text. Beside it stand the status and the message that it has to have. What the program can't
tell where the message has nowhere to go is left out. The status is 1 where a row ended otherwise. The program is OTIO of the environment,
or the one that `./otio --prove` builds.
"""
import os
import subprocess
import sys
import tempfile

from json_layout import PROGRAM, require

OLD = '{"OTIO_SCHEMA":"Clip.1","name":"s","media_reference":null}'
USAGE = 'otio: usage'  # the first line of the usage text
FAILED = 'otio: output failed'
ROWS = [
    ('an output that is full', '$OTIO convert c.otio >/dev/full', 4, FAILED),
    ('an output that is closed', '$OTIO convert c.otio >&-', 4, FAILED),
    ('a reader of the output that goes away', '{ $OTIO convert long.json --to json; echo $? >status; } | head -c 9; exit $(cat status)', 4, FAILED),
    ('a folder as output', '$OTIO convert -o . c.otio', 4, FAILED),
    ('an output in no folder', '$OTIO convert -o no/o.otio c.otio', 4, FAILED),
    ('an output that may not be written', '$OTIO convert -o /proc/version c.otio', 4, FAILED),
    ('an output without a name', '$OTIO convert -o "" c.otio', 4, FAILED),
    ('messages that are full', '$OTIO convert gone.otio 2>/dev/full', 3, ''),
    ('messages that are closed', '$OTIO convert gone.otio 2>&-', 3, ''),
    ('messages that are closed, and a target', '$OTIO convert -o o.otio c.otio 2>&- && cmp o.otio c.expected', 0, ''),
    ('all three closed', '$OTIO convert -o o.otio c.otio <&- >&- 2>&- && cmp o.otio c.expected', 0, ''),
    ('an input that is closed', '$OTIO convert - <&-', 3, 'otio: -: read failed'),
    ('an input that is a folder', '$OTIO convert - <.', 3, 'otio: -: read failed'),
    ('a folder as file', '$OTIO convert .', 3, 'otio: .: read failed'),
    ('a folder as list', '$OTIO convert --from edl .', 3, 'otio: .: read failed'),
    ('a folder as script', '$OTIO edit --script . t.otio', 3, 'otio: .: read failed'),
    ('a folder as media list', '$OTIO convert --media . l.edl', 3, 'otio: .: read failed'),
    ('a file below a file', '$OTIO convert c.otio/c.otio', 3, 'otio: c.otio/c.otio: read failed'),
    ('a missing file', '$OTIO convert gone.otio', 3, 'otio: gone.otio: absent'),
    ('a missing folder', '$OTIO convert no/gone.otio', 3, 'otio: no/gone.otio: absent'),
    ('a link to itself', 'ln -s loop loop; $OTIO convert loop', 3, 'otio: loop: read failed'),
    ('a name that is too long', '$OTIO convert $(printf %05000d 0)', 3, f'otio: {0:05000d}: read failed'),
    ('a word that is no UTF-8', '$OTIO convert "$(printf "\\377")"', 2, USAGE),
    ('memory that may not be read', '$OTIO convert /proc/self/mem', 3, 'otio: /proc/self/mem: read failed'),
    ('an empty device', '$OTIO convert /dev/null', 1, 'otio: /dev/null: J1 Syntax at 0'),
    ('zeros without an end', '$OTIO convert /dev/zero', 1, 'otio: /dev/zero: J1 Syntax at 0'),
    ('spaces without an end', 'tr "\\0" " " </dev/zero | $OTIO convert -', 1, 'otio: -: J4 Large'),
    ('line feeds without an end', 'tr "\\0" "\\n" </dev/zero | $OTIO convert --from edl -', 1, 'otio: -: L9 Large'),
    ('a list of 33 554 432 line feeds', 'tr "\\0" "\\n" </dev/zero | head -c 33554432 | $OTIO convert --from edl --to edl -', 0, ''),
    ('a list of one more', 'tr "\\0" "\\n" </dev/zero | head -c 33554433 | $OTIO convert --from edl --to edl -', 1, 'otio: -: L9 Large'),
    ('a list of one comment of 33 554 432 bytes', 'tr "\\0" "*" </dev/zero | head -c 33554432 | $OTIO convert --from edl --to edl -', 0, ''),
    ('a list of one comment of one more', 'tr "\\0" "*" </dev/zero | head -c 33554433 | $OTIO convert --from edl --to edl -', 1, 'otio: -: L9 Large'),
    ('a comment without an end', '{ printf "* "; tr "\\0" "a" </dev/zero; } | $OTIO convert --from edl -', 1, 'otio: -: L9 Large'),
    ('a script without an end', 'tr "\\0" "\\n" </dev/zero | $OTIO edit --script - t.otio', 1, 'otio: -: P4 Large'),
    ('a media list without an end', 'tr "\\0" "\\n" </dev/zero | $OTIO convert --media - l.edl', 1, 'otio: -: M6 Large'),
    ('an input in single bytes', 'dd if=c.otio bs=1 status=none | $OTIO convert - | cmp - c.expected', 0, ''),
    ('a file written over itself', 'cp c.otio d.otio; $OTIO convert -o d.otio d.otio && cmp d.otio c.expected', 0, ''),
]


def main():
    otio = os.path.abspath(os.environ.get('OTIO', PROGRAM))
    require(otio)
    others = 0
    print('| device | status | message |\n|---|---|---|')
    with tempfile.TemporaryDirectory() as folder:
        texts = {'c.otio': OLD, 't.otio': '{"OTIO_SCHEMA":"Timeline.1"}', 'l.edl': 'TITLE: T\n', 'long.json': '[' + '0,' * 100_000 + '0]'}
        for name, text in texts.items():
            with open(os.path.join(folder, name), 'w') as file:
                file.write(text)
        with open(os.path.join(folder, 'c.expected'), 'wb') as file:
            subprocess.run([otio, 'convert', 'c.otio'], cwd=folder, stdout=file, check=True)
        for device, line, status, message in ROWS:
            ended = subprocess.run(['sh', '-c', line], cwd=folder, env=dict(os.environ, OTIO=otio), stdin=subprocess.DEVNULL, capture_output=True)
            told = ended.stderr.decode().split('\n')[0]
            print(f'| {device} | {ended.returncode} | {told if len(told) < 60 else told[:20] + ".." + told[-20:]} |', flush=True)
            if (ended.returncode, told) != (status, message):
                others += 1
                print(f'otherwise: {line}: wanted {status}, {message[:60]}')
    print(f'\n{len(ROWS)} rows, {others} of them ended otherwise.')
    sys.exit(1 if others else 0)


if __name__ == '__main__':
    main()
