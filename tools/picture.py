"""The story of a message as a picture: SVG, and the language of Graphviz's dot."""

from xml.sax.saxutils import escape

from story import FAILED, GOOD, OPEN, OUTCOME, UNSIGNED

# The colours of each state: of the ground, of the line, of the text; and the dashes of its lines.
COLOURS = {GOOD: ("#eaf5ea", "#2e7d32", "#1b1b1b", ""), FAILED: ("#fde8e7", "#c62828", "#b71c1c", ""),
           UNSIGNED: ("#fff5dc", "#b26a00", "#1b1b1b", ""), OPEN: ("#f3f3f3", "#757575", "#424242", "5 4")}
LETTER, LINE, SIDE, GAP, ROWS, ZONE, TOP = 7.3, 17, 10, 24, 34, 18, 46
WIDEST = 80
HEAD = ('<svg xmlns="http://www.w3.org/2000/svg" width="%.0f" height="%.0f" viewBox="0 0 %.0f %.0f" '
        'font-family="DejaVu Sans Mono, monospace" font-size="12">')
HEAD_OF_ARROW = ('<marker id="%s" viewBox="0 0 10 10" refX="9" refY="5" markerWidth="8" markerHeight="8" markerUnits="userSpaceOnUse" '
                 'orient="auto"><path d="M 0 0 L 10 5 L 0 10 z" fill="%s"/></marker>')


def wrapped(text):
    """A line in pieces that a box can hold, cut at blanks where there are any."""
    pieces = []
    while len(text) > WIDEST:
        cut = text.rfind(" ", WIDEST // 2, WIDEST)
        cut = cut if cut > 0 else WIDEST
        pieces.append(text[:cut])
        text = "  " + text[cut:].lstrip()
    return pieces + [text]


class Placed:
    """A box with its lines and its size, and later its place."""

    def __init__(self, box):
        self.box, self.x, self.y = box, 0, 0
        self.lines = [piece for line in box.lines for piece in wrapped(line)]
        self.width = max(len(line) for line in [box.title] + self.lines) * LETTER + 2 * SIDE
        self.height = LINE * (1 + len(self.lines)) + SIDE + 2


def row_size(row):
    return sum(one.width for one in row) + GAP * (len(row) - 1), max(one.height for one in row)


class Frame:
    """A zone: rows of boxes under its name."""

    def __init__(self, word, rows):
        self.word, self.rows, self.x, self.y = word, rows, 0, 0
        sizes = [row_size(row) for row in rows]
        self.width = max([width for width, _ in sizes] + [(len(word) + 6) * (LETTER + 1)]) + 2 * ZONE
        self.height = sum(height for _, height in sizes) + ROWS * (len(rows) - 1) + ZONE + TOP

    def place(self, x, y):
        self.x, self.y = x, y
        y += TOP
        for row in self.rows:
            width, height = row_size(row)
            at = x + (self.width - width) / 2
            for one in row:
                one.x, one.y = at, y
                at += one.width + GAP
            y += height + ROWS


def levels_of(story, placed):
    """The zones by depth; each has its boxes in rows."""
    levels = {}
    for word in story.zones:
        rows = {}
        for one in placed:
            if one.box.zone == word:
                rows.setdefault(one.box.row, []).append(one)
        if rows:
            levels.setdefault(story.depth(word), []).append(Frame(word, [rows[row] for row in sorted(rows)]))
    return [levels[depth] for depth in sorted(levels)]


def laid_out(story):
    """The boxes and zones with their places, and the size of the whole."""
    placed = [Placed(box) for box in story.boxes]
    levels = levels_of(story, placed)
    ends = [one for one in placed if one.box.row == OUTCOME]
    widths = [sum(frame.width for frame in level) + GAP * (len(level) - 1) for level in levels] + [one.width for one in ends]
    whole, y = max(widths + [len(story.title) * (LETTER + 2)]), 44
    for level, width in zip(levels, widths):
        x = (whole - width) / 2 + GAP
        for frame in level:
            frame.place(x, y)
            x += frame.width + GAP
        y += max(frame.height for frame in level) + ROWS
    for one in ends:
        one.x, one.y = (whole - one.width) / 2 + GAP, y
        y += one.height + GAP
    return placed, [frame for level in levels for frame in level], whole + 2 * GAP, y


def svg_text(x, y, text, colour, bold=False):
    return '<text x="%.1f" y="%.1f" fill="%s"%s xml:space="preserve">%s</text>' % (
        x, y, colour, ' font-weight="bold"' if bold else "", escape(text))


def svg_box(one):
    ground, line, ink, dashes = COLOURS[one.box.state]
    yield '<rect x="%.1f" y="%.1f" width="%.1f" height="%.1f" rx="5" fill="%s" stroke="%s" stroke-width="1.5" stroke-dasharray="%s"/>' % (
        one.x, one.y, one.width, one.height, ground, line, dashes)
    for place, text in enumerate([one.box.title] + one.lines):
        yield svg_text(one.x + SIDE, one.y + LINE * (place + 1), text, ink, place == 0)


def svg_arrow(start, end, state):
    _, line, _, dashes = COLOURS[state]
    x, y, to_x, to_y = start.x + start.width / 2, start.y + start.height, end.x + end.width / 2, end.y - 2
    middle = (y + to_y) / 2
    curve = "M %.1f %.1f C %.1f %.1f %.1f %.1f %.1f %.1f" % (x, y, x, middle, to_x, middle, to_x, to_y)
    return '<path d="%s" fill="none" stroke="%s" stroke-width="%s" stroke-dasharray="%s" marker-end="url(#%s)"/>' % (
        curve, line, 2.5 if state == FAILED else 1.5, dashes, state)


def svg(story):
    """The picture as SVG, of itself whole."""
    placed, frames, width, height = laid_out(story)
    parts = [HEAD % (width, height, width, height), "<defs>"]
    parts += [HEAD_OF_ARROW % (state, line) for state, (_, line, _, _) in COLOURS.items()]
    parts += ["</defs>", '<rect width="100%" height="100%" fill="white"/>']
    parts.append('<g font-size="15">' + svg_text(GAP, 28, story.title, "#1b1b1b", True) + "</g>")
    for frame in frames:
        parts.append('<rect x="%.1f" y="%.1f" width="%.1f" height="%.1f" rx="9" fill="#fbfbfd" stroke="#b0b6c2"/>' % (
            frame.x, frame.y, frame.width, frame.height))
        parts.append('<g font-size="13">' + svg_text(frame.x + ZONE, frame.y + 24, "zone " + frame.word, "#37474f", True) + "</g>")
    # arrows lie beneath boxes, so that none strikes a text through
    parts += [svg_arrow(placed[arrow.start], placed[arrow.end], arrow.state) for arrow in story.arrows]
    for one in placed:
        parts += svg_box(one)
    return "\n".join(parts + ["</svg>"]) + "\n"


def quoted(text):
    return '"%s"' % text.replace("\\", "\\\\").replace('"', '\\"')


def dot(story):
    """The picture in the language of dot."""
    parts = ["digraph chain {", "  label=%s; labelloc=t;" % quoted(story.title),
             '  node [shape=box, style="rounded,filled", fontname="DejaVu Sans Mono", fontsize=10];']
    for place, word in enumerate(story.zones):
        inside = [index for index, box in enumerate(story.boxes) if box.zone == word]
        if inside:
            parts.append("  subgraph cluster_%d { label=%s; style=rounded; color=gray; %s }" % (
                place, quoted("zone " + word), " ".join("b%d;" % index for index in inside)))
    for index, box in enumerate(story.boxes):
        ground, line, ink, dashes = COLOURS[box.state]
        lines = [box.title] + [piece for text in box.lines for piece in wrapped(text)]
        label = '"%s"' % "".join(quoted(text)[1:-1] + "\\l" for text in lines)
        parts.append('  b%d [label=%s, fillcolor="%s", color="%s", fontcolor="%s"%s];' % (
            index, label, ground, line, ink, ', style="rounded,filled,dashed"' if dashes else ""))
    for arrow in story.arrows:
        parts.append('  b%d -> b%d [color="%s"%s];' % (
            arrow.start, arrow.end, COLOURS[arrow.state][1], ", style=dashed" if COLOURS[arrow.state][3] else ""))
    return "\n".join(parts + ["}"]) + "\n"
