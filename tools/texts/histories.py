"""A history (docs/FORMATS.md, "Histories"): its lines, and which one isn't right."""
import re
from typing import NamedTuple, Optional

from texts.operands import PERIPHERAL_BYTES
from texts.tool import Refused, lines_of

MOST_STEPS = 1_000_000
LONGEST_TICK = 60_000
ARRIVING = (*range(10, 18), *range(40, 48))
OPERATORS = range(1, 5)
REQUESTS = ("read", "write", "stop", "restart", "monitor", "diag")


class Item(NamedTuple):
    """A line of a history: `count` steps, an input, an arrival, a tick or a request."""

    line: int
    kind: str
    count: int = 1
    number: int = 0
    value: int = 0


class Wrong(NamedTuple):
    """A line that isn't right, and why. What a request says behind its first word is left to the program."""

    line: int
    text: str
    why: str


class History(NamedTuple):
    items: list
    wrong: Optional[Wrong]

    def entries(self):
        return sum(item.count for item in self.items)


def number_of(word, allowed):
    """The decimal number of a word, where it is one of those allowed, or None."""
    return int(word) if re.fullmatch(r"[0-9]{1,20}", word) and int(word) in allowed else None


def item_of(line, text):
    """The item that a line spells, or why it spells none."""
    words = [word for word in re.split(r"[ \t]+", text) if word]
    kind, operands = (words[0], words[1:]) if words else ("", [])
    if kind == "step" and len(operands) < 2:
        count = number_of((operands or ["1"])[0], range(1, MOST_STEPS + 1))
        return Item(line, kind, count) if count else "a number of steps is 1 to 1,000,000"
    if kind == "in" and len(operands) == 2:
        byte = number_of(operands[0], PERIPHERAL_BYTES)
        if byte is None:
            return "an input byte is 0 to 127 or 256 to 767"
        if not re.fullmatch(r"[0-9A-Fa-f]{2}", operands[1]):
            return "the value of an input byte is two hexadecimal digits"
        return Item(line, kind, number=byte, value=int(operands[1], 16))
    if kind == "arrive" and len(operands) in (1, 2):
        block = number_of(operands[0], ARRIVING)
        if block is None:
            return "an interrupt arrives for OB 10 to 17 or 40 to 47"
        if len(operands) == 2 and not re.fullmatch(r"[0-9A-Fa-f]{8}", operands[1]):
            return "the value of an arrival is eight hexadecimal digits"
        return Item(line, kind, number=block, value=int((operands[1:] or ["0"])[0], 16))
    if kind == "tick" and len(operands) == 1:
        length = number_of(operands[0], range(1, LONGEST_TICK + 1))
        return Item(line, kind, number=length) if length else "a tick is 1 to 60,000 milliseconds"
    if kind == "op" and len(operands) > 1:
        operator = number_of(operands[0], OPERATORS)
        if operator is None:
            return "an operator is 1 to 4"
        return Item(line, kind, number=operator) if operands[1] in REQUESTS else f"a request is one of {', '.join(REQUESTS)}"
    return "a line is `step`, `step n`, `in b hh`, `arrive ob`, `arrive ob hhhhhhhh`, `tick n`, `op k REQUEST`, or a comment that begins with //"


def read_history(text):
    """The items of a history up to the first line that isn't right."""
    items, steps = [], 0
    for number, line in lines_of(text):
        if line == "" or line.startswith("//"):
            continue
        item = item_of(number, line)
        if isinstance(item, str):
            return History(items, Wrong(number, line, item))
        steps += item.count if item.kind == "step" else 0
        if steps > MOST_STEPS:
            return History(items, Wrong(number, line, f"with this line there are more than {MOST_STEPS:,} steps"))
        items.append(item)
    return History(items, None)


def right_history(path, text):
    """The history that a text spells; any other is refused."""
    history = read_history(text)
    if history.wrong:
        raise Refused(f"{path}, line {history.wrong.line}: {history.wrong.why}: {history.wrong.text}")
    return history
