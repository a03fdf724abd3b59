"""Reads the SVG picture of a run and the PNG of a frame again, for the trial of both: what is drawn, and which texts and lines overlap.

Nothing here is taken from the tools that draw. Of the PNG only those that `tools/frames` writes are read.
"""
import re
import struct
import xml.etree.ElementTree as ElementTree
import zlib

# How wide a letter of a monospaced font is at most, and how far a text reaches above and below its line, at 11 pixels.
LETTER, ABOVE, BELOW = 0.62 * 11, 9, 3
VGA = ((0, 0, 0), (0, 0, 170), (0, 170, 0), (0, 170, 170), (170, 0, 0), (170, 0, 170), (170, 85, 0), (170, 170, 170),
       (85, 85, 85), (85, 85, 255), (85, 255, 85), (85, 255, 255), (255, 85, 85), (255, 85, 255), (255, 255, 85), (255, 255, 255))


class Text:
    """A text and the place that it takes."""

    def __init__(self, element):
        self.told = "".join([element.text or "", *(it.tail or "" for it in element)])
        self.kinds = element.get("class").split()
        self.entry = int(element.get("data-entry", 0))
        self.thread = int(element.get("data-thread", 0))
        self.y, width = int(element.get("y")), len(self.told) * LETTER
        self.left = int(element.get("x")) - (width if element.get("text-anchor") == "end" else 0)
        self.right = self.left + width


class Arrow:
    """An arrow: its kind, the entries at its ends, and its lines, each (left, top, right, bottom)."""

    def __init__(self, element):
        self.kind = element.get("class").split()[1]
        self.ends = (int(element.get("data-from")), int(element.get("data-to")))
        self.lines = lines_of(next(it for it in element if it.tag.endswith("path")).get("d"))


class Drawn:
    """What is in a picture."""

    def __init__(self, svg):
        self.root = ElementTree.fromstring(svg)
        self.width, self.height = int(self.root.get("width")), int(self.root.get("height"))
        self.texts = [Text(it) for it in self.of("text")]
        self.entries = [it for it in self.texts if it.entry]
        self.columns = [it for it in self.texts if "column" in it.kinds]
        self.arrows = [Arrow(it) for it in self.of("g") if "data-from" in it.attrib]
        self.bars = [it for it in self.of("rect") if "data-from" in it.attrib]
        self.refused = [it for it in self.of("rect") if it.get("class") == "refused"]
        self.frames = list(self.of("image"))

    def of(self, name):
        return self.root.iter(f"{{http://www.w3.org/2000/svg}}{name}")

    def arrows_of(self, kind):
        return sorted(it.ends for it in self.arrows if it.kind == kind)

    def bars_told(self):
        """The boxes, each (kind, thread, entry that begins it, entry that ends it or 0)."""
        return sorted((it.get("class").split()[1], int(it.get("data-thread")), int(it.get("data-from")), int(it.get("data-to") or 0))
                      for it in self.bars)

    def times(self):
        """The times on the left, each with the entry beside it."""
        entry_at = {it.y: it.entry for it in self.entries}
        return {entry_at[it.y]: int(it.told) for it in self.texts if "time" in it.kinds}

    def refusals(self):
        """The entries beside which there is a red box."""
        return sorted(it.entry for it in self.entries for box in self.refused if 0 < it.y - int(box.get("y")) < int(box.get("height")))


def lines_of(path):
    """The lines of a path that goes sideways and down only."""
    x, y = map(int, re.match(r"M(\d+) (\d+)", path).groups())
    lines = []
    for way, word in re.findall(r"([HV])(\d+)", path):
        then = (int(word), y) if way == "H" else (x, int(word))
        lines.append((min(x, then[0]), min(y, then[1]), max(x, then[0]), max(y, then[1])))
        x, y = then
    return lines


def fault(drawn):
    """What is wrong with a picture's places, or None."""
    for check in (outside, crowded, out_of_column, crossed, shared, covered, tangled):
        why = check(drawn)
        if why:
            return why
    return None


def outside(drawn):
    """A text that leaves the picture."""
    for it in drawn.texts:
        if it.left < 0 or it.right > drawn.width or it.y < ABOVE or it.y + BELOW > drawn.height:
            return f"{it.told!r} leaves the picture"
    return None


def crowded(drawn):
    """Texts that overlap: in one line, or in lines that are too near."""
    lines = {}
    for it in drawn.texts:
        lines.setdefault(it.y, []).append(it)
    for line in lines.values():
        line.sort(key=lambda it: it.left)
        for one, other in zip(line, line[1:]):
            if one.right > other.left:
                return f"{one.told!r} overlaps {other.told!r}"
    heights = sorted(lines)
    for one, other in zip(heights, heights[1:]):
        if other - one < ABOVE + BELOW:
            return f"the lines of {lines[one][0].told!r} and {lines[other][0].told!r} overlap"
    return None


def out_of_column(drawn):
    """An entry's text that isn't between the head of its column and the next one."""
    thread_of = {int(it.get("data-entry")): who_of(it) for it in drawn.of("text") if it.get("data-entry")}
    lefts = {it.thread: it.left for it in drawn.columns}
    for it in drawn.entries:
        who = thread_of[it.entry]
        left = lefts.get(who, 0)
        right = min([x for x in lefts.values() if x > left] or [drawn.width]) if who else min(lefts.values())
        if not left <= it.left <= it.right <= right:
            return f"{it.told!r} leaves the column of thread {who}"
    return None


def who_of(element):
    """Whose an entry is, by the whole of it that its title tells."""
    return int(re.match(r"entry \d+, clock \d+: (\d+) ", element[0].text).group(1))


def crossed(drawn):
    """A line of an arrow that crosses a text."""
    at_line = {it.y: it for it in drawn.entries}
    spans = {(it.left, it.right) for it in drawn.entries}
    for arrow in drawn.arrows:
        for left, top, right, bottom in arrow.lines:
            if left == right and any(one < left < other for one, other in spans):
                return f"the arrow {arrow.ends} goes down through texts"
            for y in range(top - BELOW, top + ABOVE + 1) if top == bottom else ():
                it = at_line.get(y)
                if it and left < it.right and it.left < right:
                    return f"the arrow {arrow.ends} crosses {it.told!r}"
    return None


def shared(drawn):
    """Two arrows that go down in one place."""
    downs = {}
    for arrow in drawn.arrows:
        for left, top, right, bottom in arrow.lines:
            if left == right:
                downs.setdefault(left, []).append((top, bottom, arrow.ends))
    for own in downs.values():
        own.sort()
        for one, other in zip(own, own[1:]):
            if one[1] >= other[0]:
                return f"the arrows {one[2]} and {other[2]} go down in one place"
    return None


def covered(drawn):
    """A frame that covers a text or a line of an arrow."""
    for image in drawn.frames:
        left, top, width, height = (int(image.get(name)) for name in ("x", "y", "width", "height"))
        for it in drawn.texts:
            if it.left < left + width and left < it.right and it.y - ABOVE < top + height and top < it.y + BELOW:
                return f"a frame covers {it.told!r}"
        for arrow in drawn.arrows:
            for x, y, right, bottom in arrow.lines:
                if x < left + width and left < right + 1 and y < top + height and top < bottom + 1:
                    return f"a frame covers the arrow {arrow.ends}"
    return None


def tangled(drawn):
    """Boxes of one thread that cross, or a text that leaves the box around it."""
    boxes = {}
    for it in drawn.bars:
        left, top, width, height = (int(it.get(name)) for name in ("x", "y", "width", "height"))
        boxes.setdefault(int(it.get("data-thread")), []).append((left, top, left + width, top + height))
    lefts = {it.thread: it.left for it in drawn.columns}
    for who, own in boxes.items():
        right_end = min([x for x in lefts.values() if x > lefts[who]] or [drawn.width])
        for left, top, right, bottom in own:
            for one, high, other, low in own:
                if top < high < bottom < low or top == high and bottom < low and not one <= left <= right <= other:
                    return f"boxes of thread {who} cross"
            for it in drawn.entries:
                if lefts[who] <= it.left < right_end and top < it.y < bottom and not left <= it.left <= it.right <= right:
                    return f"{it.told!r} leaves its box"
    return None


def pixels_of(png):
    """The colours of a PNG of 4 bits and a palette, row by row, each (red, green, blue)."""
    if png[:8] != b"\x89PNG\r\n\x1a\n":
        raise ValueError("no PNG")
    parts, place = {}, 8
    while place < len(png):
        size, name = struct.unpack(">I4s", png[place:place + 8])
        content = png[place + 8:place + 8 + size]
        if struct.unpack(">I", png[place + 8 + size:place + 12 + size])[0] != zlib.crc32(name + content):
            raise ValueError(f"the sum of {name} is another one")
        parts[name] = content
        place += 12 + size
    width, height, *form = struct.unpack(">IIBBBBB", parts[b"IHDR"])
    if form != [4, 3, 0, 0, 0] or list(parts) != [b"IHDR", b"PLTE", b"IDAT", b"IEND"]:
        raise ValueError(f"another form of PNG, {form}")
    colours = [tuple(parts[b"PLTE"][k:k + 3]) for k in range(0, len(parts[b"PLTE"]), 3)]
    data, length = zlib.decompress(parts[b"IDAT"]), 1 + (width + 1) // 2
    if len(data) != length * height or any(data[::length]):
        raise ValueError("rows of another length or with a filter")
    rows = (data[k + 1:k + length].hex()[:width] for k in range(0, len(data), length))
    return [[colours[int(digit, 16)] for digit in row] for row in rows]


def pixels_wanted(rows, scale):
    """The colours that a frame's digits stand for, each pixel a square."""
    return [[VGA[int(digit, 16)] for digit in row for _ in range(scale)] for row in rows for _ in range(scale)]
