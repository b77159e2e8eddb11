#!/usr/bin/env python3
"""Draws the lines of `otio frames` as an SVG picture: a lane for each child of the root stack, time along
the top in timecode, and a box for each stretch of one source, with its name and its first and last source
frame. A dissolve or a wipe is two crossing wedges. A gap is an empty place in the lane.

    otio frames cut.otio | draw_frames.py --rate 24 > cut.svg

--rate is the record rate, as `otio stat` prints it; with --drop the timecode is drop-frame. The grammar of
the lines is in docs/rules/commands.md, and what they mean in docs/rules/shows.md.
"""
import argparse
import json
import re
import sys
from dataclasses import dataclass
from fractions import Fraction
from html import escape

# ---- Reading. A picture is what plays at a record frame: a Frame, a Mix, or None where nothing does.


@dataclass(frozen=True)
class Frame:
    """A frame of a source: how the source is known (url, seq, gen, reel or name), its text, the number."""

    kind: str
    text: str
    number: int

    @property
    def source(self):
        return self.kind, self.text


@dataclass(frozen=True)
class Mix:
    """A transition at one frame; `weight` is that of the incoming picture, at least 0 and below 1."""

    kind: str
    weight: Fraction
    outgoing: object
    incoming: object


class Reader:
    """Reads one line of `otio frames` from left to right."""

    def __init__(self, line):
        self.line, self.at = line, 0

    def match(self, pattern):
        """Reads what the pattern matches here, if it does."""
        found = re.compile(pattern).match(self.line, self.at)
        self.at = found.end() if found else self.at
        return found

    def expect(self, pattern):
        found = self.match(pattern)
        if not found:
            sys.exit(f"draw_frames: no line of otio frames, at {self.at}: {self.line}")
        return found

    def text(self):
        """Reads a JSON string."""
        return json.loads(self.expect(r'"(?:[^"\\]|\\.)*"')[0])

    def picture(self):
        if self.match("-"):
            return None
        if self.match(r"mix\("):
            known = self.match(r"dissolve|wipe \d{3}")
            kind = known[0] if known else self.text()
            weight = Fraction(self.expect(r" (\d+/\d+) ")[1])
            outgoing = self.picture()
            self.expect(" ")
            incoming = self.picture()
            self.expect(r"\)")
            return Mix(kind, weight, outgoing, incoming)
        kind = self.expect("(url|seq|gen|reel|name):")[1]
        return Frame(kind, self.text(), int(self.expect(r"@(-?\d+)")[1]))

    def row(self):
        """Reads the whole line: the record frame, the index of the root child, and the picture."""
        start = self.expect(r"(-?\d+) (\d+) ")
        picture = self.picture()
        self.expect("$")
        return int(start[1]), int(start[2]), picture


# ---- Gathering. A stretch is a source that plays on; a transition is a run of mixes of one kind.


@dataclass
class Stretch:
    """A source that plays from record frame `start` up to `end`; `fade_in` and `fade_out` of those frames
    are in a transition. `steps` are the least and the most by which its frame number moved."""

    start: int
    end: int
    first: Frame
    last: Frame
    steps: tuple = ()
    fade_in: int = 0
    fade_out: int = 0

    def takes(self, record, frame):
        """Plays on with the frame, if it is the source's next one at a steady speed: as frame numbers are
        whole, the steps of one speed differ by at most one."""
        step = frame.number - self.last.number
        steps = min(step, *self.steps, step), max(step, *self.steps, step)
        if self.end != record or self.first.source != frame.source or steps[1] - steps[0] > 1:
            return False
        self.end, self.last, self.steps = record + 1, frame, steps
        return True


@dataclass
class Transition:
    kind: str
    start: int
    end: int


def sides(picture):
    """Returns what plays at a frame: pairs of a frame and its side, which is "" outside of transitions.
    Of a mix within a mix the heavier picture is drawn."""
    if isinstance(picture, Frame):
        return [(picture, "")]
    if not isinstance(picture, Mix):
        return []
    found = []
    for side, inner in (("out", picture.outgoing), ("in", picture.incoming)):
        while isinstance(inner, Mix):
            inner = inner.incoming if inner.weight >= Fraction(1, 2) else inner.outgoing
        found += [(inner, side)] if inner else []
    return found


def gather(rows):
    """Returns for each root child its stretches and its transitions, in the order in which they begin."""
    lanes = {}
    for record, child, picture in rows:
        stretches, transitions = lanes.setdefault(child, ([], []))
        open_ones = [it for it in stretches[-4:] if it.end == record]
        for frame, side in sides(picture):
            stretch = next((it for it in open_ones if it.takes(record, frame)), None)
            if stretch is None:
                stretch = Stretch(record, record + 1, frame, frame)
                stretches.append(stretch)
            if side == "in" and stretch.fade_in == record - stretch.start:
                stretch.fade_in += 1
            stretch.fade_out = stretch.fade_out + 1 if side == "out" else 0
        if isinstance(picture, Mix):
            last = transitions[-1] if transitions else None
            if last and last.end == record and last.kind == picture.kind and picture.weight:
                last.end += 1
            else:
                transitions.append(Transition(picture.kind, record, record + 1))
    return lanes


# ---- Drawing.

LEFT, TOP, RIGHT = 56, 54, 24  # margins
LANE, SPACE = 76, 26  # height of a lane, and the space above it
FONT = 12
COLOURS = "#9ecae1 #fdd0a2 #a1d99b #dadaeb #fcbba1 #c7e9c0 #fee391 #bcbddc #d9d9d9 #c6dbef".split()


def timecode(frame, rate, drop):
    """Returns the SMPTE ST 12 label of a record frame."""
    nominal = -(-rate.numerator // rate.denominator)
    if drop:
        # Two labels a minute (at a nominal 60: four) are left out, but for each tenth minute.
        lost = nominal // 15
        tens, rest = divmod(frame, 600 * nominal - 9 * lost)
        frame += 9 * lost * tens + lost * max(0, (rest - lost) // (60 * nominal - lost))
    seconds, frames = divmod(frame, nominal)
    marks = seconds // 3600 % 24, seconds // 60 % 60, seconds % 60
    return "{:02}:{:02}:{:02}{}{:02}".format(*marks, ";" if drop else ":", frames)


def short_name(frame):
    """Returns a source's name for its box: of a URL what stands after the last slash."""
    return frame.text.rstrip("/").rpartition("/")[2] if frame.kind in ("url", "seq") else frame.text


def width_of(text):
    return 0.64 * FONT * len(text)


class Picture:
    """The SVG of some lanes from record frame `start` up to `end`."""

    def __init__(self, lanes, start, end, width):
        self.lanes, self.start, self.end = lanes, start, end
        self.scale = (width - LEFT - RIGHT) / (end - start)
        self.width, self.height = width, TOP + len(lanes) * (LANE + SPACE) + 8
        self.colours, self.parts = {}, []

    def x(self, record):
        return round(LEFT + (record - self.start) * self.scale, 1)

    def put(self, text):
        self.parts.append(text)

    def put_text(self, x, y, text, more=""):
        self.put(f'<text x="{round(x, 1)}" y="{round(y, 1)}"{more}>{escape(text)}</text>')

    def put_axis(self, rate, drop):
        self.put_text(LEFT - 12, TOP - 18, "child", ' class="head"')
        nominal = -(-rate.numerator // rate.denominator)
        steps = [1, 2, 3, 4, 6, 12, *[nominal * it for it in (1, 2, 5, 10, 30, 60, 300, 600, 3600)]]
        needed = width_of("00:00:00:00") + 8
        step = next((it for it in steps if it * self.scale >= needed), steps[-1])
        for record in range(self.start, self.end, step):
            x = self.x(record)
            self.put(f'<path d="M{x} {TOP - 14}V{self.height - 8}" class="tick"/>')
            if x + needed <= self.width:
                self.put_text(x + 4, TOP - 18, timecode(record, rate, drop), ' class="time"')

    def put_lane(self, index, child, stretches, transitions):
        top = TOP + SPACE + index * (LANE + SPACE)
        self.put_text(LEFT - 12, top + LANE / 2 + 4, str(child), ' class="child"')
        self.put(f'<path d="M{LEFT} {top + LANE}H{self.width - RIGHT}" class="tick"/>')
        for stretch in stretches:
            self.put_stretch(top, stretch)
        for it in transitions:
            self.put_text((self.x(it.start) + self.x(it.end)) / 2, top - 6, it.kind, ' class="mix"')

    def put_stretch(self, top, stretch):
        """Draws a box whose ends slant where the source fades in or out."""
        first, last, bottom = stretch.first, stretch.last, top + LANE
        left, right = self.x(stretch.start), self.x(stretch.end)
        full_left = self.x(stretch.start + stretch.fade_in)
        full_right = self.x(stretch.end - stretch.fade_out)
        points = [(full_left, top), (right, top), (full_right, bottom), (left, bottom)]
        colour = self.colours.setdefault(first.source, COLOURS[len(self.colours) % len(COLOURS)])
        numbers = f"{first.number}" if first == last else f"{first.number}–{last.number}"
        self.put(f"<g><title>{escape(f'{first.text} {numbers}')}</title>")
        self.put(f'<path d="M{"L".join(f"{x} {y}" for x, y in points)}Z" fill="{colour}"/>')
        # A slanted end leaves the text the half of it, less the slope along two lines of text.
        slope = 1.2 * FONT / LANE
        start = left + (full_left - left) * (0.5 + slope * (full_left > left))
        end = right - (right - full_right) * (0.5 + slope * (full_right < right))
        self.put_label(start, end, top, short_name(first), numbers)
        self.put("</g>")

    def put_label(self, start, end, top, name, numbers):
        """Writes the name and the source frames into a box: along it, or upright where it is narrow."""
        middle, centre = round((start + end) / 2, 1), top + LANE / 2
        turn = ""
        if end - start < max(width_of(name), width_of(numbers)):
            turn = f' transform="rotate(-90 {middle} {centre})"'
            if end - start < 2 * FONT or LANE < width_of(name):
                return
        self.put_text(middle, centre - 2, name, f' class="name"{turn}')
        self.put_text(middle, centre + FONT - 1, numbers, f' class="numbers"{turn}')

    def text(self):
        style = (
            f"text{{font:{FONT}px Helvetica,Arial,sans-serif;fill:#222}}"
            ".name,.numbers,.mix{text-anchor:middle}.name{font-weight:bold}"
            ".child{text-anchor:end;font-weight:bold}.time,.head{fill:#555}.head{text-anchor:end}"
            ".mix{fill:#a33;font-style:italic}.tick{stroke:#ddd}path{stroke:#555}"
        )
        size = f'width="{self.width}" height="{self.height}" viewBox="0 0 {self.width} {self.height}"'
        head = f'<svg xmlns="http://www.w3.org/2000/svg" {size}>'
        ground = '<rect width="100%" height="100%" fill="#fff"/>'
        return "\n".join([head, f"<style>{style}</style>", ground, *self.parts, "</svg>"])


def main():
    words = argparse.ArgumentParser(description="Draws the lines of otio frames as an SVG picture.")
    words.add_argument("--rate", type=Fraction, required=True, help="the record rate, as 24 or 29.97")
    words.add_argument("--drop", action="store_true", help="drop-frame timecode")
    words.add_argument("--width", type=int, default=1080, help="the width of the picture")
    given = words.parse_args()
    rows = [Reader(line).row() for line in sys.stdin.read().split("\n")[:-1]]
    if not rows:
        sys.exit("draw_frames: there are no lines to draw")
    lanes = gather(rows)
    picture = Picture(lanes, rows[0][0], rows[-1][0] + 1, given.width)
    picture.put_axis(given.rate, given.drop)
    for index, (child, lane) in enumerate(sorted(lanes.items())):
        picture.put_lane(index, child, *lane)
    print(picture.text())


if __name__ == "__main__":
    main()
