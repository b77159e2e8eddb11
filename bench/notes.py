#!/usr/bin/env python3
"""Measures `otio convert --notes` on lists with locators, next to the same command without `--notes`.

    bench/notes.py [--runs R]

Two lists: 380 000 events with a locator each, and one event of picture and sound with as many locators as the longest list holds. Times are
medians of R runs (3), output to /dev/null, with the peak memory. The program is OTIO of the environment, or the one that `./otio` builds.
"""
import argparse
import os
import tempfile

from json_layout import LIMIT, PROGRAM, megabytes, milliseconds, ratio, require, shown

HEAD = 'TITLE: CUT\nFCM: NON-DROP FRAME\n'
DAY = 24 * 86400


def label(frame):
    second = frame % DAY // 24
    return f'{second // 3600:02d}:{second // 60 % 60:02d}:{second % 60:02d}:{frame % 24:02d}'


def one_each(events):
    """Events of two frames, each with a locator."""
    for index in range(events):
        span = f'{label(2 * index)} {label(2 * index + 2)}'
        yield f'{index % 999 + 1:03d} R{index % 50} V C {span} {span}\n*LOC:{label(2 * index)} RED\n'


def all_of_one():
    """An event of twenty hours, and locators up to the limit."""
    event = '001 R1 AA/V C 00:00:00:00 20:00:00:00 00:00:00:00 20:00:00:00\n'
    yield event
    locator = '*LOC:00:00:00:00 RED\n'
    for index in range((LIMIT - len(HEAD) - len(event)) // len(locator)):
        yield f'*LOC:{label(index % (20 * 3600 * 24))} RED\n'


def main():
    words = argparse.ArgumentParser()
    words.add_argument('--runs', type=int, default=3)
    runs = words.parse_args().runs
    otio = os.path.abspath(os.environ.get('OTIO', PROGRAM))
    require(otio)
    with tempfile.TemporaryDirectory() as folder:
        print('| List | to | MB | ms | ms with notes | ratio | peak MB | peak MB with notes |\n|---|---|---|---|---|---|---|---|')
        for name, lines in (('380 000 events', one_each(380_000)), ('one event', all_of_one())):
            path = os.path.join(folder, 'x.edl')
            with open(path, 'w') as f:
                f.write(HEAD)
                f.writelines(lines)
            for to in ('edl', 'otio') if name == 'one event' else ('edl',):
                plain = [otio, 'convert', '--to', to, '--wide', 'x.edl']
                noted = [otio, 'convert', '--to', to, '--wide', '--notes', 'x.edl']
                without, within = milliseconds(plain, folder, runs), milliseconds(noted, folder, runs)
                peaks = megabytes(plain, folder), megabytes(noted, folder)
                print(
                    f'| {name} | {to} | {os.path.getsize(path) / 1e6:.1f} | {without:.0f} | {within:.0f} | {ratio(within, without)} '
                    f'| {shown(peaks[0])} | {shown(peaks[1])} |',
                    flush=True,
                )


if __name__ == '__main__':
    main()
