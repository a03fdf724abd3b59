"""The picture of a run as SVG: a column for each thread, a row for each entry.

Only one entry stands in a row, and lines between columns go down in channels that no text reaches. So no line crosses a text: an arrow
leaves its text sideways, goes down beside the column of its other end, and comes sideways to the other text.
"""
import base64
from bisect import bisect_right
from html import escape

from frame_png import png_of

LETTER, ROW, BASE = 7, 16, 11
PAD, TOP, EDGE = 6, 28, 8
TRACK, MARGIN, MOST_TRACKS = 7, 9, 12
MOST_LETTERS, LEAST_LETTERS, LEAST_ANSWER = 44, 12, 29
LEAST_WIDTH = 480
MARK = "≠"

KINDS = {
    "post": "post post_thread post_quit translate",
    "send": "send send_notify send_timeout send_callback await leave reply in_send",
    "retrieval": "get peek dispatch status",
    "window": "register unregister new_window doom unmake drop place show enable find await_title next_top child_after"
              " style_of window_at is_window parent message begin_dialog dialog_state end_dialog",
    "input": "mouse key key_state attach detach set_focus set_active set_capture release_capture get_focus get_active get_capture",
    "drawing": "invalidate validate update_rect begin_paint end_paint fill erase snap",
    "clock": "clock sleep_until yield tick advance set_timer kill_timer",
}
KIND_OF = {word: kind for kind, words in KINDS.items() for word in words.split()}
STYLE = """
svg{background:#fff}
text{font:11px 'DejaVu Sans Mono',Menlo,Consolas,'Liberation Mono',monospace;fill:#333}
.head{font-weight:bold}.side,.wait{fill:#777}
.post{fill:#8f4a00}.send{fill:#1a4fa0}.retrieval{fill:#17652f}.window{fill:#5d2c8c}.input{fill:#00606b}.drawing{fill:#96205f}.clock{fill:#4f4f4f}
.refusal{fill:#b00000;font-weight:bold}
rect.refused{fill:#ffd9d6;stroke:#d04040}
.life{stroke:#999;stroke-width:2}.waits{stroke:#fff;stroke-width:2;stroke-dasharray:2 3}
.bar{stroke-width:1}.enter{fill:#dbe7fb;stroke:#5b8ad6}.inside{fill:#ebe6f7;stroke:#8f7cc4}.called{fill:#ddf1e0;stroke:#63ab74}
.callback{fill:#fbf0cf;stroke:#c9a23c}.bar.wait{fill:none;stroke:#888;stroke-dasharray:3 3}
.arrow path{fill:none;stroke-width:1.3}.arrow .tip{stroke:none}
.arrow.post path{stroke:#c26a0a}.arrow.post .tip{fill:#c26a0a}.arrow.send path{stroke:#2f6fce}.arrow.send .tip{fill:#2f6fce}
.arrow.input path{stroke:#0a8f9c}.arrow.input .tip{fill:#0a8f9c}
.arrow.answer path{stroke:#2f6fce;stroke-dasharray:4 3}.arrow.answer .tip{fill:#2f6fce}
.frame{image-rendering:pixelated}.edge{fill:none;stroke:#777}.guide{stroke:#eee}
"""
BARS = {
    "enter": "procedure for a send of another thread", "inside": "procedure for an own send", "called": "procedure of a dispatched message",
    "callback": "callback procedure", "wait": "wait for an answer",
}
ARROWS = {
    "post": "from post to retrieval", "input": "from input to retrieval", "send": "from send to its procedure", "answer": "back with the answer",
}


def shortened(text, room):
    return text if len(text) <= room else text[:room - 2].rstrip() + ".."


def label_of(entry):
    """An entry's call and answer, without the time and the cursor of a message, and cut to the letters of a column."""
    answer = entry.answer.split(" ")
    told = " ".join(answer[:-3] if answer[0] == "got" else answer)
    told = shortened(told, max(LEAST_ANSWER, MOST_LETTERS - 3 - len(entry.call)))
    return f"{shortened(entry.call, MOST_LETTERS - 3 - len(told))} = {told}"


def kind_of(entry):
    """The class of an entry's text."""
    if entry.answer.startswith("refused"):
        return "refusal"
    return "wait" if entry.answer == "wait" else KIND_OF.get(entry.call.split(" ")[0], "other")


class Picture:
    """What is drawn, and where: the rows of the picked entries, the columns of the picked threads, the channels between them."""

    def __init__(self, story, first, last, threads, marks):
        self.story, self.threads, self.marks = story, threads, marks
        self.rows = [it for it in story.entries[first - 1:last] if it.who in threads or it.who == 0]
        self.numbers = [it.number for it in self.rows]
        self.row_of = {number: row for row, number in enumerate(self.numbers)}
        self.column_of = {who: column for column, who in enumerate(threads)}
        deepest = max((story.depths[number - 1] for number in self.numbers), default=0)
        self.indent, self.inset = (8, 2) if deepest <= 12 else (max(2, 96 // deepest), 1)
        self.labels = [label_of(it) + (f" {MARK}" if it.number in marks else "") for it in self.rows]
        ranges = [(bar, *self.rows_of(bar.first, bar.last)) for bar in story.bars if bar.thread in self.column_of]
        self.boxes = [(bar, begin, end) for bar, begin, end in ranges if begin < end]
        self.place_arrows()
        self.place_rows()
        self.place_columns()

    def place_arrows(self):
        """Gives each arrow a track in the channel beside the column of its target, or tells the other end beside its texts."""
        self.drawn, self.tracks = [], [[] for _ in range(len(self.threads) + 1)]
        for arrow in self.story.arrows:
            source, target = self.row_of.get(arrow.source), self.row_of.get(arrow.target)
            if source is not None and target is not None:
                begin, end = (self.column_of[self.rows[row].who] for row in (source, target))
                channel = end if begin < end else end + 1
                track = free_track(self.tracks[channel], source, target)
                if track is not None:
                    self.drawn.append((arrow, source, target, channel, track))
                    continue
            if source is not None:
                self.labels[source] += f" »{arrow.target}"
            if target is not None:
                self.labels[target] = f"«{arrow.source} {self.labels[target]}"

    def place_rows(self):
        """The upper edge of each row, and of what follows the last one. A frame makes its row higher."""
        self.tops, self.scales = [TOP], []
        for entry in self.rows:
            scale = max(1, min(6, 128 // max(len(entry.frame[0]), 2 * len(entry.frame)))) if entry.frame else 0
            self.scales.append(scale)
            self.tops.append(self.tops[-1] + ROW + (len(entry.frame) * scale + 4 if scale else 0))

    def place_columns(self):
        """The left and right edges of all columns: numbers, times, the clock's own calls, and the threads."""
        story = self.story
        self.number_end = EDGE + LETTER * max(5, len(str(self.numbers[-1])) if self.numbers else 0)
        self.time_end = self.number_end + 2 * LETTER + LETTER * max(2, len(str(story.clocks[-1])))
        own = [len(label) for entry, label in zip(self.rows, self.labels) if entry.who == 0]
        self.clock_left = self.time_end + 2 * LETTER
        left = self.clock_left + (max([5, *own]) * LETTER + MARGIN if own else 0)
        self.edges = []
        for column, who in enumerate(self.threads):
            left += self.channel_width(column)
            widths = [self.width(row) for row, entry in enumerate(self.rows) if entry.who == who]
            width = max([LEAST_LETTERS * LETTER, *widths])
            self.edges.append((left, left + width))
            left += width
        self.width_of_all = max(LEAST_WIDTH, left + self.channel_width(len(self.threads)) + EDGE)

    def channel_width(self, channel):
        used = len(self.tracks[channel])
        return used * TRACK + 2 * MARGIN if used else MARGIN

    def width(self, row):
        """How wide a column must be for a row's text and frame, with the bars around them."""
        frame = self.rows[row].frame
        wide = max(len(self.labels[row]) * LETTER, len(frame[0]) * self.scales[row] if frame else 0)
        depth = self.story.depths[self.numbers[row] - 1]
        return 2 * PAD + depth * (self.indent + self.inset) + wide

    def text_left(self, row):
        who = self.rows[row].who
        if who == 0:
            return self.clock_left
        return self.edges[self.column_of[who]][0] + PAD + self.story.depths[self.numbers[row] - 1] * self.indent

    def text_right(self, row):
        return self.text_left(row) + len(self.labels[row]) * LETTER

    def track_at(self, channel, track):
        """Where a track goes down. A channel ends where the column on its right begins."""
        if channel < len(self.threads):
            return self.edges[channel][0] - MARGIN - (len(self.tracks[channel]) - 1 - track) * TRACK
        return self.edges[-1][1] + MARGIN + track * TRACK

    def rows_of(self, first, last):
        """The rows behind one entry up to another, or to the end: the first of them and the one behind the last."""
        return bisect_right(self.numbers, first), len(self.numbers) if last is None else bisect_right(self.numbers, last)


def free_track(tracks, source, target):
    """A track of a channel that is free from one row to another, or None where as many as there may be are taken."""
    for track, end in enumerate(tracks):
        if end < source:
            tracks[track] = target
            return track
    if len(tracks) == MOST_TRACKS:
        return None
    tracks.append(target)
    return len(tracks) - 1


def text(x, y, told, kind, title=None, more=""):
    hint = f"<title>{escape(title, quote=False)}</title>" if title else ""
    return f'<text x="{x}" y="{y}" class="{kind}"{more}>{hint}{escape(told, quote=False)}</text>'


def heads(picture):
    """The names of the columns, with the windows that each thread has made."""
    y = TOP - 10
    yield text(picture.number_end, y, "entry", "head", more=' text-anchor="end"')
    yield text(picture.time_end, y, "ms", "head", more=' text-anchor="end"')
    if any(entry.who == 0 for entry in picture.rows):
        yield text(picture.clock_left, y, "clock", "head")
    for who, (left, right) in zip(picture.threads, picture.edges):
        windows = [f"{number} {title}" for number, (title, maker) in picture.story.windows.items() if maker == who]
        told = f"thread {who}" + (f": {', '.join(windows)}" if windows else "")
        yield text(left, y, shortened(told, (right - left) // LETTER), "head column", told, f' data-thread="{who}"')


def guides(picture):
    """Faint lines between rows, to follow a row by."""
    if len(picture.rows) > 5:
        yield '<path class="guide" d="' + "".join(f"M{EDGE} {top}H{picture.width_of_all - EDGE}" for top in picture.tops[5:-1:5]) + '"/>'


def lives(picture):
    """A line down each column while its thread lives, with gaps where it waits."""
    for who, (left, _) in zip(picture.threads, picture.edges):
        own = [entry for entry in picture.story.entries if entry.who == who]
        begin, end = picture.rows_of(own[0].number - 1, own[-1].number if own[-1].answer == "ended" else None)
        if begin < end:
            yield line(picture, "life", left, begin, end)
        for entry, then in zip(own, own[1:] + [None]):
            begin, end = picture.rows_of(entry.number, then.number - 1 if then else None)
            if entry.answer == "wait" and begin < end:
                yield line(picture, "waits", left, begin, end)


def line(picture, kind, x, begin, end):
    return f'<path class="{kind}" d="M{x} {picture.tops[begin]}V{picture.tops[end]}"/>'


def bars(picture):
    """A box for each procedure and each wait, below the entry that begins it, down to the one that ends it."""
    for bar, begin, end in picture.boxes:
        left, right = picture.edges[picture.column_of[bar.thread]]
        x, top = left + 2 + bar.depth * picture.indent, picture.tops[begin]
        width, height = right - bar.depth * picture.inset - x, picture.tops[end] - 1 - top
        title = f"{bar.text} (entries {bar.first} to {bar.last or 'the end'})"
        yield (f'<rect class="bar {bar.kind}" x="{x}" y="{top}" width="{width}" height="{height}" data-thread="{bar.thread}"'
               f' data-from="{bar.first}" data-to="{bar.last or ""}"><title>{escape(title)}</title></rect>')


def arrows(picture):
    """The arrows, from beside the text of one entry to beside that of another."""
    for arrow, source, target, channel, track in picture.drawn:
        begin, end = (picture.column_of[picture.rows[row].who] for row in (source, target))
        x, (top, bottom) = picture.track_at(channel, track), (picture.tops[row] + ROW // 2 for row in (source, target))
        leaves = picture.text_left(source) - 3 if begin > end else picture.text_right(source) + 3
        comes, back = (picture.text_left(target) - 2, -6) if begin < end else (picture.text_right(target) + 2, 6)
        title = f"{arrow.text}: from entry {arrow.source} to entry {arrow.target}"
        yield (f'<g class="arrow {arrow.kind}" data-from="{arrow.source}" data-to="{arrow.target}"><title>{escape(title)}</title>'
               f'<path d="M{leaves} {top}H{x}V{bottom}H{comes + back}"/>'
               f'<path class="tip" d="M{comes} {bottom}l{back} -3v6z"/></g>')


def entries(picture):
    """The number, the clock where it is another than before, the text and the frame of each entry."""
    told = None
    for row, entry in enumerate(picture.rows):
        y, clock, left = picture.tops[row] + BASE, picture.story.clocks[entry.number - 1], picture.text_left(row)
        yield text(picture.number_end, y, str(entry.number), "side", more=' text-anchor="end"')
        if clock != told:
            told = clock
            yield text(picture.time_end, y, str(clock), "side time", more=' text-anchor="end"')
        kind = kind_of(entry)
        if kind == "refusal":
            width = len(picture.labels[row]) * LETTER + 4
            yield f'<rect class="refused" x="{left - 2}" y="{picture.tops[row] + 1}" width="{width}" height="{ROW - 2}"/>'
        title = f"entry {entry.number}, clock {clock}: {entry.who} {entry.call} = {entry.answer}"
        title += "".join(f"\n{MARK} {point}" for point in picture.marks.get(entry.number, []))
        yield text(left, y, picture.labels[row], kind, title, f' data-entry="{entry.number}"')
        if entry.frame:
            yield image(entry.frame, picture.scales[row], left, picture.tops[row] + ROW)


def image(frame, scale, x, y):
    """A frame as a small picture inside of the picture."""
    data = base64.b64encode(png_of(frame, scale)).decode()
    place = f'x="{x}" y="{y}" width="{len(frame[0]) * scale}" height="{len(frame) * scale}"'
    return f'<image class="frame" {place} href="data:image/png;base64,{data}"/><rect class="edge" {place}/>'


def legend(picture, y):
    """What the colours, boxes and lines say, in lines as wide as the picture; and where the next line stands."""
    told, x = [], EDGE
    for kind, sample, words in legend_items(picture):
        width = (len(words) + 2) * LETTER + (24 if sample else 0)
        if x > EDGE and x + width > picture.width_of_all:
            x, y = EDGE, y + ROW
        if sample:
            told.append(sample.format(x=x, y=y - 10, middle=y - 4, end=x + 12, tip=x + 18))
        told.append(text(x + (24 if sample else 0), y, words, kind))
        x += width
    return told, y + ROW


def legend_items(picture):
    """The class of a text, the sample in front of it, if any, and its words, for what occurs in the picture."""
    kinds = {kind_of(entry) for entry in picture.rows}
    for kind in (*KINDS, "other", "wait", "refusal"):
        if kind in kinds:
            yield kind, None, {"wait": "waits", "refusal": "refused", "other": "other calls"}.get(kind, kind)
    shown = {bar.kind for bar, _, _ in picture.boxes}
    for kind, words in BARS.items():
        if kind in shown:
            yield "side", f'<rect class="key {kind} bar" x="{{x}}" y="{{y}}" width="18" height="12"/>', words
    for kind, words in ARROWS.items():
        if any(it[0].kind == kind for it in picture.drawn):
            yield "side", (f'<g class="key {kind} arrow"><path d="M{{x}} {{middle}}H{{end}}"/>'
                           '<path class="tip" d="M{tip} {middle}l-6 -3v6z"/></g>'), words
    if any("»" in label or "«" in label for label in picture.labels):
        yield "side", None, "»N to entry N, «N from entry N, which isn't drawn"
    if any(number in picture.marks for number in picture.numbers):
        yield "side", None, f"{MARK} may touch a point where Wine 8.0 does otherwise"


def picture_of(story, first=1, last=None, threads=None, marks=None):
    """The SVG text of a run's entries from the first to the last, in the columns of these threads.

    `marks` has, by the numbers of entries, the points where another system may do otherwise."""
    last = min(last or len(story.entries), len(story.entries))
    picture = Picture(story, first, last, sorted(threads or story.threads()), marks or {})
    y = picture.tops[-1] + ROW + 4
    foot = []
    if last == len(story.entries):
        for told in story.ending:
            foot.append(text(EDGE, y, shortened(told, (picture.width_of_all - 2 * EDGE) // LETTER), "head end", told))
            y += ROW
    keys, y = legend(picture, y + 4)
    parts = [it for part in (guides, bars, lives, arrows, heads, entries) for it in part(picture)]
    width, height = picture.width_of_all, y
    head = (f'<svg xmlns="http://www.w3.org/2000/svg" width="{width}" height="{height}" viewBox="0 0 {width} {height}" role="img">\n'
            f'<title>Entries {first} to {last} of {len(story.entries)}</title>\n<style>{STYLE}</style>\n'
            f'<rect x="0" y="0" width="{width}" height="{height}" fill="#fff"/>\n')
    return head + "\n".join(parts + foot + keys) + "\n</svg>\n"
