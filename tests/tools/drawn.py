"""A picture of tools/picture, read from where things are drawn and from nothing else: a lane is where its name stands,
a slot is where its number stands."""

import re
from collections import Counter
from typing import NamedTuple
from xml.etree import ElementTree

EM = 0.57  # the width of a letter by its font size, as an estimate for wide fonts
SVG = "{http://www.w3.org/2000/svg}"
HREF = "{http://www.w3.org/1999/xlink}href"
LAYERS = {"short-window": 0, "given": 1, "idle": 1, "period": 2, "window": 2, "tag": 3, "short": 3}


class Wrong(Exception):
    """Something is drawn, or refused, otherwise than it should be."""


def expect(truth, words):
    if not truth:
        raise Wrong(words)


def one_of(things, words):
    """The first of the things, if there is one."""
    found = next(iter(things), None)
    expect(found, words)
    return found


# --- Boxes of what is drawn -----------------------------------------------------


class Box(NamedTuple):
    left: float
    top: float
    right: float
    bottom: float

    def within(self, other):
        across = other.left <= self.left and self.right <= other.right
        return across and other.top <= self.top and self.bottom <= other.bottom

    def moved(self, right, down):
        return Box(self.left + right, self.top + down, self.right + right, self.bottom + down)

    @property
    def middle(self):
        return (self.left + self.right) / 2, (self.top + self.bottom) / 2


def numbers(element, *names):
    return [float(element.get(name, 0)) for name in names]


class Picture:
    """What is drawn, each element with the box that it fills."""

    def __init__(self, svg):
        self.svg, self.tree = svg.decode(), ElementTree.fromstring(svg)
        self.style = self.tree.findtext(f"{SVG}style")
        self.shapes = {f"#{shape.get('id')}": shape for shape in self.tree.find(f"{SVG}defs")}
        shown = [element for element in self.tree if element.tag not in (f"{SVG}style", f"{SVG}defs")]
        self.drawn = [(element, self.box(element)) for element in shown]
        self.view = Box(*map(float, self.tree.get("viewBox").split()))
        self.texts = [(element.text, box) for element, box in self.drawn if element.tag == f"{SVG}text"]
        self.things = [(element, box) for element, box in self.drawn if element.get("class") in LAYERS]

    def box(self, element):
        kind = element.tag[len(SVG) :]
        if kind == "use":
            return self.box(self.shapes[element.get(HREF)]).moved(*numbers(element, "x", "y"))
        if kind == "g":
            lefts, tops, rights, bottoms = zip(*map(self.box, element))
            return Box(min(lefts), min(tops), max(rights), max(bottoms))
        return self.text_box(element) if kind == "text" else shape_box(kind, element)

    def text_box(self, element):
        x, y = numbers(element, "x", "y")
        rule = re.search(rf"text\.{element.get('class')} {{(.*)}}", self.style) or re.search("text {(.*)}", self.style)
        size = int(re.search(r"font-size: (\d+)px", rule[1])[1])
        width = EM * size * len(element.text)
        left = x - width / 2 if "text-anchor: middle" in rule[1] else x
        return Box(left, y - size, left + width, y)


def shape_box(kind, element):
    """The box of a rect, circle or line, half of its outline counted."""
    half = float(element.get("stroke-width", 1)) / 2 if element.get("stroke") else 0
    if kind == "line":
        x, top, other_x, bottom = numbers(element, "x1", "y1", "x2", "y2")
        expect(x == other_x, "a line that is not upright")
        return Box(x - half, top, x + half, bottom)
    if kind == "circle":
        x, y, r = numbers(element, "cx", "cy", "r")
        return Box(x - r - half, y - r - half, x + r + half, y + r + half)
    expect(kind == "rect", f"an element that is not expected: {kind}")
    x, y, width, height = numbers(element, "x", "y", "width", "height")
    return Box(x - half, y - half, x + width + half, y + height + half)


# --- Where lanes and slots are, by the names and numbers drawn ------------------


class Band(NamedTuple):
    first: int  # its first slot, which begins at x = left
    end: float  # the first slot of the next band, if there is one
    left: float
    pitch: float
    lanes: list  # (name, top, bottom) of each
    bottom: float

    def slot_at(self, x):
        slot = self.first + (x - self.left) / self.pitch
        expect(abs(slot - round(slot)) < 0.001, f"x = {x} is not where a slot begins")
        return round(slot)

    def lane_at(self, y):
        return one_of((lane for lane in self.lanes if lane[1] <= y < lane[2]), f"y = {y} is in no lane")

    def cell(self, slot, lane):
        left = self.left + (slot - self.first) * self.pitch
        return Box(left, lane[1], left + self.pitch, lane[2])


def pitch_of(picture, row):
    """From a slot to the next: between two numbers, or the width of the lane in a run of one slot."""
    if len(row) > 1:
        return (row[1][1] - row[0][1]) / (row[1][0] - row[0][0])
    lane = next(box for element, box in picture.drawn if element.get("class") == "lane")
    return lane.right - lane.left


def bands_of(picture):
    """The bands from top to bottom; below each is its row of slot numbers."""
    rows, bands, above = {}, [], 0
    for words, box in picture.texts:
        if words.isdigit():
            rows.setdefault(box.top, []).append((int(words), box.middle[0]))
    names = [(words, box.top) for words, box in picture.texts if re.fullmatch(r"job \d+|idle", words)]
    pitch, firsts = pitch_of(picture, rows[min(rows)]), sorted(min(row)[0] for row in rows.values())
    for (bottom, row), end in zip(sorted(rows.items()), [*firsts[1:], float("inf")]):
        here = [(name, top) for name, top in names if above < top < bottom]
        lanes = [(*lane, below) for lane, below in zip(here, [top for _, top in here[1:]] + [bottom])]
        bands.append(Band(row[0][0], end, row[0][1] - pitch / 2, pitch, lanes, bottom))
        for slot, x in row:
            expect(bands[-1].slot_at(x - pitch / 2) == slot < end, f"number {slot} stands at another slot")
        above = bottom
    return bands


# --- What is read back ---------------------------------------------------------


def read_back(picture, bands):
    """How often each thing is drawn: (kind, lane, slot), or (kind, lane, first slot, slot after the last)."""
    things = Counter()
    for element, box in picture.things:
        kind, (x, y) = element.get("class"), box.middle
        band = one_of((band for band in bands if y < band.bottom), f"a {kind} stands below the last band")
        lane = band.lane_at(y)
        expect((kind == "idle") == (lane[0] == "idle"), f"a {kind} stands in the lane {lane[0]}")
        if kind == "short-window":
            where = band.slot_at(box.left), band.slot_at(box.right)
        elif kind in ("period", "window"):
            where = (band.slot_at(x),)
        else:
            where = (band.slot_at(x - band.pitch / 2),)
            expect(box.within(band.cell(*where, lane)), f"{kind} of slot {where[0]} reaches out of its cell")
        expect(band.first <= where[0] < band.end, f"{kind} of slot {where[0]} stands in another band")
        expect(box.bottom - box.top < lane[2] - lane[1], f"{kind} of slot {where[0]} is higher than its lane")
        check_words(element, kind, lane[0], *where)
        things[(kind, lane[0]) + where] += 1
    return things


def check_words(element, kind, lane, slot, *end):
    """The data and the tooltip say what the place says."""
    job = None if lane == "idle" else lane[len("job ") :]
    tooltip = element.findtext(f"{SVG}title")
    expect((element.get("data-job"), element.get("data-slot")) == (job, str(slot)), f"data of {kind}, {lane}, {slot}")
    expect(lane in tooltip and (end or tooltip.startswith(f"slot {slot}: ")), f"tooltip of {kind}, {lane}, {slot}")


def lines_of(things, slots):
    """The lines of the slots, from the things drawn."""
    told = [{"given": [], "idle": [], "tag": [], "short": []} for _ in range(slots)]
    for kind, lane, slot, *_ in things.elements():
        if kind in told[0]:
            expect(slot < slots, f"a {kind} stands behind the last slot")
            told[slot][kind].append("-" if lane == "idle" else int(lane[len("job ") :]))
    for slot, it in enumerate(told):
        words = [slot, *it["given"], *it["idle"]]
        words += [f"t{job}" for job in sorted(it["tag"])] + [f"s{job}" for job in sorted(it["short"])]
        yield " ".join(map(str, words))
