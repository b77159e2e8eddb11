#!/usr/bin/env python3
"""shown.py PROGRAM: runs each command line of otio that a page of the repository shows, and
compares what it writes with what stands below it.

A command stands after `$ ` in a block of code, and begins with `otio` or `./otio` and a command of
the program: `./otio --test` and the like are of the script, and are not run. The lines up to the
next command are its output and its message. A line `..` is any lines. With no lines below it a
command only has to end with status 0. The commands of a page run one after another, in a folder
that has `examples`. The status is 1 where something differs, or where no page shows a command.
"""
import os
import re
import shutil
import subprocess
import sys
import tempfile
from pathlib import Path

TOP = Path(__file__).resolve().parent.parent
PAGES = [TOP / "README.md", *sorted(TOP.glob("docs/**/*.md")), TOP / "examples/README.md"]


def shown(page):
    """Yields each command of a page with the text below it."""
    for block in re.findall(r"^```.*\n((?:.*\n)*?)```", page.read_text(encoding="utf-8"), re.M):
        for part in re.split(r"^\$ ", block, flags=re.M)[1:]:
            command, _, text = part.partition("\n")
            if re.match(r"(\./)?otio (?!--)", command):
                yield command, text


def is_shown(written, text):
    """Tests whether a text is what was written, where a line `..` of it is any lines."""
    lines = text.splitlines(True)
    pattern = "".join("(?:.*\n)*" if it == "..\n" else re.escape(it) for it in lines)
    return re.fullmatch(pattern, written) is not None


def run(command, folder):
    """Returns the status of a command line in a folder, and its output with its message."""
    environment = {**os.environ, "PATH": f"{folder}:{os.environ['PATH']}"}
    words = ["sh", "-c", f"({command}) 2>&1"]
    ran = subprocess.run(words, capture_output=True, text=True, cwd=folder, env=environment)
    return ran.returncode, ran.stdout


def main(program):
    same, others = 0, 0
    for page in PAGES:
        with tempfile.TemporaryDirectory() as folder:
            shutil.copytree(TOP / "examples", f"{folder}/examples")
            os.symlink(os.path.abspath(program), f"{folder}/otio")
            for command, text in shown(page):
                status, written = run(command, folder)
                if is_shown(written, text) if text else status == 0:
                    same += 1
                    continue
                others += 1
                print(f"{page.relative_to(TOP)}: differs from what is shown: {command}")
                print(written[:2000])
    print(f"pages: {same} commands write what is shown, {others} don't")
    return 1 if others or not same else 0


sys.exit(main(sys.argv[1]))
