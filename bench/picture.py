"""Draws times against numbers of trees as SVG.

Both axes are logarithmic: a line twice as steep as another is a time that grows
with the square of the other's.
"""

import math
from typing import NamedTuple, Sequence, Tuple
from xml.sax.saxutils import escape

WIDTH, HEIGHT = 720, 440
LEFT, RIGHT, TOP, BOTTOM = 70, 200, 40, 60
LABEL_GAP = 14  # between the middles of two labels
COLOURS = ("#0b6e4f", "#b5541c", "#3b4cc0")
DASHES = ("none", "6 4")


class Line(NamedTuple):
    """The times of one program on tables of one kind."""

    label: str
    colour: str
    dash: str
    points: Sequence[Tuple[int, float]]  # number of trees, milliseconds


class Scale(NamedTuple):
    """Where a value stands on a logarithmic axis between two places."""

    low: float
    high: float
    start: float
    end: float

    def place(self, value):
        """The place of a value."""
        part = math.log(value / self.low) / math.log(self.high / self.low)
        return self.start + part * (self.end - self.start)


def decades(times):
    """The powers of ten around the times."""
    low = math.floor(math.log10(min(times)))
    high = math.ceil(math.log10(max(times)))
    return [10.0 ** power for power in range(low, max(high, low + 1) + 1)]


def text_at(x, y, words, anchor="middle", colour="#222"):
    """A piece of text."""
    return ('<text x="%.1f" y="%.1f" text-anchor="%s" fill="%s">%s</text>'
            % (x, y, anchor, colour, escape(words)))


def rule(x1, y1, x2, y2):
    """A line of the grid."""
    return '<line x1="%.1f" y1="%.1f" x2="%.1f" y2="%.1f" stroke="#ddd"/>' % (x1, y1, x2, y2)


def grid(across, up, numbers, marks):
    """The grid and the figures at its edges."""
    drawn = []
    for number in numbers:
        x = across.place(number)
        drawn += [rule(x, up.end, x, up.start), text_at(x, up.start + 18, "%d" % number)]
    for mark in marks:
        y = up.place(mark)
        drawn += [rule(across.start, y, across.end, y), text_at(across.start - 8, y + 4, "%g" % mark, "end")]
    middle = (across.start + across.end) / 2
    drawn.append(text_at(middle, up.start + 42, "trees"))
    drawn.append(text_at(across.start - 8, up.end - 14, "ms", "end"))
    return drawn


def label_places(lines, up):
    """Where each line's label stands: at the line's end, or as far below the
    label above it as keeps both readable."""
    places = {}
    lowest = -math.inf
    for line in sorted(lines, key=lambda line: up.place(line.points[-1][1])):
        lowest = max(up.place(line.points[-1][1]), lowest + LABEL_GAP)
        places[line.label] = lowest
    return places


def svg(title, lines):
    """The picture as text."""
    numbers = sorted({number for line in lines for number, _ in line.points})
    marks = decades([time for line in lines for _, time in line.points])
    across = Scale(numbers[0], numbers[-1], LEFT, WIDTH - RIGHT)
    up = Scale(marks[0], marks[-1], HEIGHT - BOTTOM, TOP)
    drawn = [text_at(LEFT, 20, title, "start")] + grid(across, up, numbers, marks)
    places = label_places(lines, up)
    for line in lines:
        points = " ".join("%.1f,%.1f" % (across.place(number), up.place(time)) for number, time in line.points)
        drawn.append('<polyline points="%s" fill="none" stroke="%s" stroke-width="2" stroke-dasharray="%s"/>'
                     % (points, line.colour, line.dash))
        drawn.append(text_at(across.end + 8, places[line.label] + 4, line.label, "start", line.colour))
    head = ('<svg xmlns="http://www.w3.org/2000/svg" viewBox="0 0 %d %d" font-family="sans-serif" font-size="13">'
            % (WIDTH, HEIGHT))
    ground = '<rect width="%d" height="%d" fill="#fff"/>' % (WIDTH, HEIGHT)
    return "\n".join([head, ground] + drawn + ["</svg>", ""])
