#!/usr/bin/env python3
"""Conforms a list for a turnover, and reports which of its events the media list doesn't carry.

    turnover.py [--rate R] LIST.edl MEDIA.txt OUT.otio

It runs `otio convert`, which names the first event that isn't carried and then writes nothing. So each reel
of a named event gets a stand-in, a day of media, and the list is conformed again until all is carried. OUT
is written where no stand-in was needed.

The program is OTIO of the environment, or the script `otio` above this folder. The status is 0 where OUT was
written, 1 where events aren't carried, and else that of otio.
"""
import argparse
import math
import os
import re
import shutil
import subprocess
import sys
import tempfile
from pathlib import Path

OTIO = os.environ.get("OTIO") or Path(__file__).resolve().parent.parent / "otio"
REFUSED = 1
# The messages that say why an event isn't carried (docs/MESSAGES.md), with its line.
NOT_CARRIED = re.compile(r"(Q1 NoReel|Q2 Outside|Q3 Rate) at (\d+)$")
CAUSES = {
    "Q1 NoReel": "not in the media list",
    "Q2 Outside": "the media list hasn't all of its frames",
    "Q3 Rate": "the media list has another rate",
}


def otio(*arguments):
    """Runs otio. Returns its status, its output, and its message: the last line of standard error."""
    ran = subprocess.run([OTIO, *arguments], capture_output=True, text=True)
    return ran.returncode, ran.stdout, ran.stderr.strip().rpartition("\n")[2]


def lines_of(path):
    return path.read_text(encoding="utf-8", errors="surrogateescape").splitlines()


def reels_at(lines, number):
    """Returns the reels of the event at a line. A dissolve or wipe has two lines with one event number, and
    is named by the second."""
    before, own = (lines[at].split() if at >= 0 else [] for at in (number - 2, number - 1))
    return [before[1], own[1]] if before[:1] == own[:1] else [own[1]]


def conform(event_list, media_list, rate, out):
    """Conforms the list to `out`. Returns the status and the message of the last try, and for each event that
    isn't carried its line, the cause and the reels."""
    lacking, stand_ins, media = [], {}, media_list
    while True:
        words = ["convert", "--rate", rate, "--media", media, "-o", out, event_list]
        status, _, message = otio(*words)
        named = NOT_CARRIED.search(message)
        if status != REFUSED or not named:
            return status, message, sorted(lacking)
        cause, line, rows = named[1], int(named[2]), lines_of(media_list)
        reels = [reel for reel in reels_at(lines_of(event_list), line) if reel not in stand_ins]
        if cause == "Q1 NoReel":
            reels = [reel for reel in reels if not any(it.startswith(reel + "\t") for it in rows)]
        if not reels:
            return status, message, sorted(lacking)
        lacking.append((line, CAUSES[cause], reels))
        day = 86400 * math.ceil(float(rate))
        stand_ins.update({reel: f"{reel}\t{rate}\t0\t{day}\tstand-in:{reel}" for reel in reels})
        kept = [row for row in rows if row.split("\t")[0] not in stand_ins]
        media = out.with_name("media.txt")
        media.write_text("\n".join([*kept, *stand_ins.values(), ""]), errors="surrogateescape")


def main():
    words = argparse.ArgumentParser(description="Conforms a list for a turnover.")
    words.add_argument("--rate", default="24", help="the rate of the list (24)")
    words.add_argument("list", type=Path, help="a CMX 3600 list")
    words.add_argument("media", type=Path, help="a media list")
    words.add_argument("out", type=Path, help="the timeline to write")
    given = words.parse_args()
    with tempfile.TemporaryDirectory() as folder:
        conformed = Path(folder, "conformed.otio")
        status, message, lacking = conform(given.list, given.media, given.rate, conformed)
        for line, cause, reels in lacking:
            print(f"{given.list.name}:{line}: {' and '.join(reels)}: {cause}")
        if status:
            print(message, file=sys.stderr)
            return status
        if lacking:
            print(f"not carried: {len(lacking)}; {given.out.name} isn't written")
            return REFUSED
        counts = dict(line.split(" ") for line in otio("stat", conformed)[1].splitlines())
        shutil.copyfile(conformed, given.out)
    print(f"{given.out.name}: {counts['clips']} clips, {counts['gaps']} gaps, ", end="")
    print(f"{counts['length']} frames from {counts['start']}, {counts['rate']} a second")
    return 0


if __name__ == "__main__":
    try:
        sys.exit(main())
    except OSError as error:
        sys.exit(f"turnover: {error}")
