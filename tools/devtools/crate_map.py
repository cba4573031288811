"""Draws the map of the crates, docs/crates.svg, from crates.txt.

A part is a line `# NAME` of crates.txt, and the crates on the lines behind it. Each part is a band, the first at the bottom, and its crates
stand in it in their order, from the left or from the right; the part that measures and tests stands beside the others. An arrow leads from
a crate to one that it stands on; what it stands on by way of another has none.

With `--check` nothing is written, and the status is 1 where docs/crates.svg is another picture. The status is 1 too where a crate is in no
part, or stands on one of a part above its own.
"""

import sys
from dataclasses import dataclass, field
from functools import cache
from itertools import accumulate, combinations, product

from .workspace import BESIDE, ROOT, needs, parts

FILE = ROOT / "docs" / "crates.svg"
# Sizes in pixels: of the whole, of a band and of what stands between two, of a crate and of a letter of its name.
WIDTH, MARGIN, LABEL, ASIDE = 1260, 16, 170, 190
BAND, GAP = 64, 26
HEIGHT, LETTER, PADDING = 32, 7.9, 22
# How far apart the crates of a band are, what leads through it, and two arrows at a crate; and by how much a lane may be moved.
APART, LANE, PORT, NEARLY = 26, 14, 12, 6
# How often crates and lanes are moved to where what they are joined to stands: to compare, and for the picture.
FEW_ROUNDS, ROUNDS = 10, 60
# How many pixels of arrows a crossing of two is worth.
CROSSING = 60

STYLE = """
  .paper { fill: #ffffff } .band { fill: #f1f4f8; stroke: #d5dce6 } .aside { fill: #f8f6f1; stroke: #e3dccd }
  .box { fill: #ffffff; stroke: #5b6b82 } .line { fill: none; stroke: #7c8ba1; stroke-width: 1.4 } .head { fill: #7c8ba1 }
  text { font-family: ui-monospace, SFMono-Regular, Menlo, Consolas, 'DejaVu Sans Mono', monospace; fill: #1d2939 }
  .name { font-size: 13px; text-anchor: middle }
  .part { font-family: system-ui, -apple-system, 'Segoe UI', Helvetica, Arial, 'DejaVu Sans', sans-serif; font-size: 14px; font-weight: 600 }
  .note { font-size: 10.5px; text-anchor: middle; fill: #5b6b82 }
  @media (prefers-color-scheme: dark) {
    .paper { fill: #0f141b } .band { fill: #1a222d; stroke: #2c3746 } .aside { fill: #221f1a; stroke: #3a352b }
    .box { fill: #0f141b; stroke: #8fa1ba } .line { stroke: #72839b } .head { fill: #72839b }
    text { fill: #e4eaf2 } .note { fill: #9fb0c7 }
  }
"""


# ---- the crates


def direct():
    """What each crate stands on in the repository, but for what it stands on by way of another."""
    every = needs()
    own = {name: [it for it in its if it in every] for name, its in every.items()}

    @cache
    def below(name):
        return frozenset(it for other in own[name] for it in (other, *below(other)))

    return {name: [it for it in its if not any(it in below(other) for other in its)] for name, its in own.items()}


def faults(every, stands_on):
    """What crates.txt says that no map shows."""
    part_of = {name: place for place, names in enumerate(every.values()) for name in names}
    titles = list(every)
    if lost := [name for name in stands_on if name not in part_of]:
        yield f"in no part of crates.txt, which is a line `# NAME` and the crates behind it: {', '.join(lost)}"
        return
    for name, other in ((name, other) for name, others in stands_on.items() for other in others):
        if part_of[other] > part_of[name]:
            yield f"{name} of {titles[part_of[name]]} stands on {other} of {titles[part_of[other]]}, which is a part above"


# ---- where all stands


@dataclass(eq=False)
class Item:
    """A crate, or a lane by which arrows to a crate lead through a band."""

    name: str
    row: int
    is_lane: bool
    x: float = 0
    # What it is joined to in other bands.
    joined: list = field(default_factory=list)

    @property
    def width(self):
        return LANE if self.is_lane else len(self.name) * LETTER + PADDING


class Rows:
    """The bands from the bottom up, with crates and lanes from the left to the right."""

    def __init__(self, bands, stands_on, rounds):
        self.crates = {name: Item(name, row, False) for row, names in enumerate(bands) for name in names}
        self.rows = [[self.crates[name] for name in names] for names in bands]
        self.lanes, self.links, self.inside = {}, [], []
        for name in self.crates:
            for other in stands_on[name]:
                self.join(self.crates[name], self.crates[other])
        self.settle(rounds)

    def join(self, upper, lower):
        """Leads an arrow from band to band. Those to one crate share their lanes."""
        if upper.row == lower.row:
            self.inside.append((upper, lower))
            return
        at = upper
        for row in range(upper.row - 1, lower.row - 1, -1):
            below = lower if row == lower.row else self.lane(lower.name, row)
            if (at, below) not in self.links:
                self.links.append((at, below))
                at.joined.append(below)
                below.joined.append(at)
            at = below

    def lane(self, name, row):
        if (name, row) not in self.lanes:
            self.lanes[name, row] = Item(name, row, True)
            self.rows[row].append(self.lanes[name, row])
        return self.lanes[name, row]

    def settle(self, rounds):
        """Moves all to where what it is joined to stands, again and again, up and down."""
        low, high = MARGIN + LABEL, WIDTH - 3 * MARGIN - ASIDE
        for row in self.rows:
            for place, item in enumerate(row):
                item.x = low + (high - low) * (place + 0.5) / len(row)
        for turn in range(rounds):
            order = range(len(self.rows)) if turn % 2 else reversed(range(len(self.rows)))
            for row in order:
                self.settle_row(row, low, high)

    def straighten(self):
        """Moves each lane that is nearly below what leads to it to where it is."""
        for upper, lower in sorted(self.links, key=lambda link: (-link[0].row, link[1].name)):
            begin = upper.x if upper.is_lane else ports([other for at, other in self.links if at is upper], upper)[lower]
            if lower.is_lane and abs(begin - lower.x) < NEARLY:
                lower.x = begin

    def settle_row(self, row, low, high):
        wanted = {item: sum(it.x for it in item.joined) / len(item.joined) if item.joined else item.x for item in self.rows[row]}
        boxes = [item for item in self.rows[row] if not item.is_lane]
        lanes = sorted((item for item in self.rows[row] if item.is_lane), key=lambda item: (wanted[item], item.name))
        self.rows[row] = merged(boxes, lanes, wanted)
        place(self.rows[row], wanted, low, high)

    def cost(self):
        """How far arrows lead to a side, and how often they cross."""
        by_row = [[(upper.x, lower.x) for upper, lower in self.links if upper.row == row] for row in range(len(self.rows))]
        crossings = sum((a - c) * (b - d) < 0 for links in by_row for (a, b), (c, d) in combinations(links, 2))
        return sum(abs(upper.x - lower.x) for upper, lower in self.links) + CROSSING * crossings


def arranged(bands, stands_on):
    """The bands, of which those are turned round by which arrows are shorter and cross less: each choice is tried."""
    choices = product((False, True), repeat=len(bands))
    turned = ([names[::-1] if is_turned else names for names, is_turned in zip(bands, choice)] for choice in choices)
    best = min(turned, key=lambda tried: Rows(tried, stands_on, FEW_ROUNDS).cost())
    rows = Rows(best, stands_on, ROUNDS)
    rows.straighten()
    return rows


def merged(boxes, lanes, wanted):
    """The crates in their order, and each lane before the first that stands, or wants to stand, behind it."""
    found, at = [], 0
    for box in boxes:
        while at < len(lanes) and wanted[lanes[at]] < (box.x + wanted[box]) / 2:
            found.append(lanes[at])
            at += 1
        found.append(box)
    return found + lanes[at:]


def apart(left, right):
    """How far the middles of two neighbours are apart at least."""
    if left.is_lane and right.is_lane:
        return LANE
    return (left.width + right.width) / 2 + (LANE if left.is_lane or right.is_lane else APART)


def place(row, wanted, low, high):
    """Places a row as near to where each wants to stand as their order and sizes allow: by least squares, a lane counts more."""
    offsets = [0, *accumulate(apart(left, right) for left, right in zip(row, row[1:]))]
    groups = []
    for item, offset in zip(row, offsets):
        weight = 4 if item.is_lane else 1
        groups.append([(wanted[item] - offset) * weight, weight, 1])
        while len(groups) > 1 and groups[-2][0] / groups[-2][1] > groups[-1][0] / groups[-1][1]:
            last = groups.pop()
            groups[-1] = [sum(pair) for pair in zip(groups[-1], last)]
    least, most = low + row[0].width / 2, high - row[-1].width / 2 - offsets[-1]
    middles = [min(max(total / weight, least), most) for total, weight, count in groups for _ in range(count)]
    for item, middle, offset in zip(row, middles, offsets):
        item.x = middle + offset


# ---- the picture


def top_of(row, count):
    return MARGIN + (count - 1 - row) * (BAND + GAP)


def number(value):
    return f"{value:.1f}".removesuffix(".0")


def path(*steps):
    """A path of letters and places."""
    return " ".join(step if isinstance(step, str) else number(step) for step in steps)


def ports(items, at):
    """Where arrows meet at an item, one beside the other in the order of the items that they come from or go to."""
    order = sorted(items, key=lambda item: (item.x, item.name))
    step = min(PORT, (at.width - 16) / max(1, len(order) - 1)) if not at.is_lane else 0
    return {item: at.x + (place - (len(order) - 1) / 2) * step for place, item in enumerate(order)}


def line(steps, has_head):
    head = ' marker-end="url(#head)"' if has_head else ""
    return f'<path class="line" d="{path(*steps)}"{head}/>'


def between(rows):
    """The arrows from band to band, and the lanes through bands."""
    count = len(rows.rows)
    above = {item: [upper for upper, lower in rows.links if lower is item] for item in rows.crates.values()}
    below = {item: [lower for upper, lower in rows.links if upper is item] for item in rows.crates.values()}
    for upper, lower in rows.links:
        begin = ports(below[upper], upper)[lower] if not upper.is_lane else upper.x
        end = ports(above[lower], lower)[upper] if not lower.is_lane else lower.x
        bottom = top_of(upper.row, count) + (BAND if upper.is_lane else (BAND + HEIGHT) / 2)
        top = top_of(lower.row, count) + (0 if lower.is_lane else (BAND - HEIGHT) / 2 - 2)
        middle = (bottom + top) / 2
        yield line(("M", begin, bottom, "C", begin, middle, end, middle, end, top), not lower.is_lane)
    for lane in rows.lanes.values():
        top = top_of(lane.row, count)
        yield line(("M", lane.x, top, "V", top + BAND), False)


def within(rows):
    """The arrows of a band: to the neighbour, or over those between."""
    for item, other in rows.inside:
        boxes = [it for it in rows.rows[item.row] if not it.is_lane]
        side = 1 if item.x > other.x else -1
        begin, end = item.x - side * item.width / 2, other.x + side * (other.width / 2 + 2)
        middle = top_of(item.row, len(rows.rows)) + BAND / 2
        if abs(boxes.index(item) - boxes.index(other)) == 1:
            yield line(("M", begin, middle, "H", end), True)
            continue
        over, at = middle - HEIGHT / 2 - 8, middle - 8
        up, down, round_up, round_down = begin - side * 9, end + side * 9, begin - side * 15, end + side * 15
        rise = ("Q", up, at, up, at - 7, "V", over + 6, "Q", up, over, round_up, over, "H", round_down)
        fall = ("Q", down, over, down, over + 6, "V", at - 7, "Q", down, at, end, at)
        yield line(("M", begin, at, *rise, *fall), True)


def box(x, y, name, note=""):
    width = len(name) * LETTER + PADDING
    yield f'<rect class="box" x="{number(x - width / 2)}" y="{number(y - HEIGHT / 2)}" width="{number(width)}" height="{HEIGHT}" rx="6"/>'
    yield f'<text class="name" x="{number(x)}" y="{number(y + 4.5)}">{name}</text>'
    if note:
        yield f'<text class="note" x="{number(x)}" y="{number(y + HEIGHT / 2 + 15)}">{note}</text>'


def band(x, y, width, height, kind="band"):
    return f'<rect class="{kind}" x="{number(x)}" y="{number(y)}" width="{number(width)}" height="{number(height)}" rx="10"/>'


def bands(names):
    for row, name in enumerate(names):
        y = top_of(row, len(names))
        yield band(MARGIN, y, WIDTH - 3 * MARGIN - ASIDE, BAND)
        yield f'<text class="part" x="{MARGIN + 14}" y="{number(y + BAND / 2 + 5)}">{name}</text>'


def beside(names, stands_on, height):
    """The part that stands beside the others, with what each of its crates stands on."""
    left = WIDTH - MARGIN - ASIDE
    yield band(left, MARGIN, ASIDE, height - 2 * MARGIN, "aside")
    yield f'<text class="part" x="{left + 14}" y="{MARGIN + 26}">{BESIDE}</text>'
    step = (height - 2 * MARGIN - 60) / len(names)
    for place, name in enumerate(reversed(names)):
        yield from box(left + ASIDE / 2, MARGIN + 40 + step * (place + 0.5), name)
        for nth, other in enumerate(stands_on[name]):
            y = MARGIN + 40 + step * (place + 0.5) + HEIGHT / 2 + 15 + 13 * nth
            yield f'<text class="note" x="{number(left + ASIDE / 2)}" y="{number(y)}">{"on" if nth == 0 else "and"} {other}</text>'


def drawing():
    every, stands_on = parts(), direct()
    if found := list(faults(every, stands_on)):
        sys.exit("\n".join(f"tools/dev map: {fault}" for fault in found))
    aside = every.pop(BESIDE, [])
    rows = arranged(list(every.values()), stands_on)
    height = 2 * MARGIN + len(every) * BAND + (len(every) - 1) * GAP
    shapes = [*bands(every), *between(rows), *within(rows)]
    for item in rows.crates.values():
        shapes += box(item.x, top_of(item.row, len(every)) + BAND / 2, item.name)
    shapes += beside(aside, stands_on, height) if aside else []
    size = 'viewBox="0 0 8 8" refX="7" refY="4" markerWidth="6.5" markerHeight="6.5" orient="auto"'
    head = f'<marker id="head" {size}><path class="head" d="M0 0.6 L8 4 L0 7.4 Z"/></marker>'
    return "\n".join([
        f'<svg xmlns="http://www.w3.org/2000/svg" viewBox="0 0 {WIDTH} {height}" width="{WIDTH}" height="{height}" role="img">',
        f"<title>The crates in {len(every)} parts, each on those below it</title>",
        f"<style>{STYLE}</style>",
        f"<defs>{head}</defs>",
        f'<rect class="paper" width="{WIDTH}" height="{height}"/>',
        *shapes,
        "</svg>\n",
    ])


def arguments(parser):
    parser.add_argument("--check", action="store_true", help="say whether docs/crates.svg is the picture of crates.txt, and write nothing")


def main(given):
    picture = drawing()
    if not given.check:
        FILE.write_text(picture, encoding="utf-8")
        return 0
    is_same = FILE.exists() and FILE.read_text(encoding="utf-8") == picture
    print(f"map: docs/{FILE.name} {'is' if is_same else 'is not'} the picture of crates.txt{'' if is_same else ': `tools/dev map` draws it'}")
    return 0 if is_same else 1
