"""A run as a timing diagram: one row for each signal, time to the right, the last value of each millisecond.

The diagram stands on a ground of its own, so that it is legible on white and on dark pages, and turns dark itself where the
reader asks for that.
"""
from xml.sax.saxutils import escape

from texts.happenings import modes_by_time, pulses_by_time, values_by_time
from texts.tool import Refused

WIDTH = 960
MARGIN = 16
ROW = 36
HIGH, LOW = 8, 28
LETTER = 7.85
SLANT = 3
LARGEST_LABEL = 40
STYLE = """
  .ground { fill: #ffffff; stroke: #8b949e }
  .grid { stroke: #d8dee4 }
  .rest { stroke: #b6bfc8; stroke-dasharray: 2 3 }
  text { font: 13px ui-monospace, Menlo, Consolas, "DejaVu Sans Mono", monospace; fill: #1f2328 }
  .title { font-weight: bold }
  .time { font-size: 12px; fill: #57606a }
  .stop { stroke: #cf222e; stroke-width: 2 }
  path.input, path.output { fill: none; stroke-width: 2; stroke-linejoin: round }
  rect.input, rect.output { fill-opacity: 0.14 }
  path.input { stroke: #0969da }
  path.output { stroke: #bc4c00 }
  rect.input { fill: #0969da }
  rect.output { fill: #bc4c00 }
  @media (prefers-color-scheme: dark) {
    .ground { fill: #0d1117; stroke: #6e7681 }
    .grid { stroke: #30363d }
    .rest { stroke: #484f58 }
    text { fill: #e6edf3 }
    .time { fill: #9198a1 }
    .stop { stroke: #f85149 }
    path.input { stroke: #58a6ff }
    path.output { stroke: #f0883e }
    rect.input { fill: #58a6ff }
    rect.output { fill: #f0883e }
  }
"""


class Scale:
    """Where a time stands: from `left` on, with some room behind the end for what stands there."""

    def __init__(self, left, length):
        self.left = left
        self.end = length + max(length // 24, 1)
        self.right = WIDTH - MARGIN
        self.length = length

    def x(self, time):
        return round(self.left + (self.right - self.left) * time / self.end, 1)

    def marks(self):
        """Round times, at most twelve of them."""
        step = next(step for power in range(12) for step in (10**power, 2 * 10**power, 5 * 10**power) if self.length <= 12 * step)
        return range(0, self.length + 1, step)


def spans(values, end):
    """From when to when which value stands."""
    times = [time for time, _ in values[1:]] + [end]
    return [(begin, until, value) for (begin, value), until in zip(values, times)]


def bit_row(values, pulses, scale, top, kind):
    """A line that is high where the bit is 1, over a shade, and a thin mark where it was another one within a millisecond."""
    shapes, path = [], ""
    shapes += [f'<path class="{kind}" style="stroke-width: 1" d="M{scale.x(time)},{top + HIGH} V{top + LOW}"/>' for time in pulses]
    for begin, until, value in spans(values, scale.end):
        left, right, level = scale.x(begin), scale.x(until), top + (HIGH if value else LOW)
        if value:
            shapes.append(f'<rect class="{kind}" x="{left}" y="{level}" width="{right - left:.1f}" height="{LOW - HIGH}"/>')
        path += f"{'L' if path else 'M'}{left},{level} H{right} "
    shapes.append(f'<path class="{kind}" d="{path.strip()}"/>')
    return shapes


def number_row(values, scale, top, kind, shown):
    """A box for each value, with the value in it where it has room."""
    shapes = []
    for begin, until, value in spans(values, scale.end):
        left, right, text = scale.x(begin), scale.x(until), shown(value)
        slant = min(SLANT, (right - left) / 2)
        middle = top + (HIGH + LOW) / 2
        shapes.append(
            f'<path class="{kind}" d="M{left},{middle} L{left + slant:.1f},{top + HIGH} H{right - slant:.1f} L{right},{middle} '
            f'L{right - slant:.1f},{top + LOW} H{left + slant:.1f} Z"/>'
        )
        if len(text) * LETTER + 2 * SLANT + 4 <= right - left:
            shapes.append(f'<text x="{(left + right) / 2:.1f}" y="{middle + 4.5}" text-anchor="middle">{escape(text)}</text>')
    return shapes


def seconds(time):
    return f"{time / 1000:g} s"


def diagram(happened, signals, title=""):
    """The diagram as the text of an SVG file. Where no time passes or nothing is to be shown, there is none."""
    if not happened.length:
        raise Refused("no time passes in this history (it has no tick), so there is no timing diagram; the lines tell the order")
    if not signals:
        raise Refused("no signal changes in this run, and --signals names none, so there is nothing to draw")
    labels = [str(signal) if len(str(signal)) <= LARGEST_LABEL else str(signal)[: LARGEST_LABEL - 1] + "…" for signal in signals]
    scale = Scale(MARGIN + round(LETTER * max(map(len, labels))) + 14, happened.length)
    top = MARGIN + (24 if title else 0)
    bottom = top + ROW * len(signals)
    stops = [(time, mode) for time, mode in modes_by_time(happened) if mode.startswith("STOP")]
    height = bottom + (52 if stops else 34)
    shapes = [f'<rect class="ground" x="0.5" y="0.5" width="{WIDTH - 1}" height="{height - 1}" rx="6"/>']
    if title:
        shapes.append(f'<text class="title" x="{MARGIN}" y="{MARGIN + 12}">{escape(title)}</text>')
    for time in scale.marks():
        x = scale.x(time)
        shapes.append(f'<path class="grid" d="M{x},{top} V{bottom + 4}"/>')
        shapes.append(f'<text class="time" x="{x}" y="{bottom + 20}" text-anchor="middle">{seconds(time)}</text>')
    values_of, pulses_of = values_by_time(happened, signals), pulses_by_time(happened, signals)
    for number, (signal, label) in enumerate(zip(signals, labels)):
        row, kind, values = top + ROW * number, "output" if signal.operand.is_output else "input", values_of[signal]
        shapes.append(f'<text x="{MARGIN}" y="{row + LOW - 5}">{escape(label)}</text>')
        if signal.operand.size:
            shapes += number_row(values, scale, row, kind, signal.shown)
        else:
            shapes.append(f'<path class="rest" d="M{scale.left},{row + LOW} H{scale.right}"/>')
            shapes += bit_row(values, pulses_of[signal], scale, row, kind)
    for time, mode in stops:
        x = scale.x(time)
        shapes.append(f'<path class="stop" d="M{x},{top} V{bottom + 6}"/>')
        shapes.append(f'<text x="{x}" y="{bottom + 40}" text-anchor="middle">{mode}</text>')
    head = f'<svg xmlns="http://www.w3.org/2000/svg" viewBox="0 0 {WIDTH} {height}" width="{WIDTH}" height="{height}" role="img">'
    described = f"<title>{escape(title or 'Timing diagram of a run')}</title>"
    return "\n".join([head, described, f"<style>{STYLE}</style>", *shapes, "</svg>"]) + "\n"
