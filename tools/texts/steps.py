"""Histories as a person thinks of them: inputs by name, times, and cycles in place of steps."""
import re
from typing import NamedTuple

from texts.histories import ARRIVING, MOST_STEPS, item_of
from texts.operands import hint_for, operand_of, value_of
from texts.tool import Refused, lines_of

LONGEST_WAIT = 100
UNITS = {"ms": 1, "s": 1000, "m": 60_000, "min": 60_000, "h": 3_600_000}
COMMENT = re.compile(r'((?:[^"/]|"[^"]*"|/(?!/))*)//')
SETTING = re.compile(r'("[^"]+"|[A-Za-z]+\s*[0-9.]+)\s+(\S+)')
UNQUOTED = re.compile(r'([^"]+?)\s+([0-9+-]\S*|TRUE|FALSE)', re.IGNORECASE)
OWN_WORDS = ("cycle", "cycles", "wait", "ticks")
ARRIVAL = re.compile(r"OB\s*([0-9]+)(?:\s+(?:DW#)?16#([0-9A-Fa-f]{1,8}))?", re.IGNORECASE)


class Cycles(NamedTuple):
    """So many whole cycles at least, and how many steps surely hold one: 0 where no line has said it yet."""

    count: int
    steps: int


class Part(NamedTuple):
    """A line of a person, and what it stands for: lines of a history, and cycles."""

    line: int
    text: str
    entries: list


class Sizes(NamedTuple):
    """How many steps surely hold a whole cycle, 0 where no line has said it yet, and the longest tick of a wait."""

    cycle: int = 0
    tick: int = LONGEST_WAIT


def milliseconds_of(text):
    """The milliseconds of a time as `2s`, `1.5s`, `250ms` or `1m30s`."""
    parts = re.findall(r"([0-9]+(?:\.[0-9]+)?)\s*(ms|min|m|s|h)", text)
    if not parts or "".join("".join(part) for part in parts) != re.sub(r"\s", "", text):
        raise Refused(f"{text} is no time: 2s, 1.5s, 250ms or 1m30s is one")
    total = sum(float(number) * UNITS[unit] for number, unit in parts)
    if total != int(total) or total < 1:
        raise Refused(f"{text} isn't a whole number of milliseconds, 1 at least")
    return int(total)


def count_of(text, most, what):
    if not re.fullmatch(r"[0-9]{1,9}", text) or not 1 <= int(text) <= most:
        raise Refused(f"{what} is a number from 1 to {most:,}, not {text or 'nothing'}")
    return int(text)


def hint_on(text):
    """What is perhaps meant by a line that says nothing that is known."""
    unquoted = UNQUOTED.fullmatch(text)
    if operand_of(text) or text.startswith('"') and text.endswith('"'):
        return "; a value stands behind it, as in I 0.0 1"
    if not unquoted:
        return "; tools/history --help has each kind of line"
    hint = hint_for(unquoted[1])
    return f"; {hint}" if hint else f'; symbols stand in quotes: "{unquoted[1]}" {unquoted[2]}'


class Writer:
    """Tells what lines stand for, one after the other, and knows the inputs, the sizes and the time so far."""

    def __init__(self, symbols):
        self.symbols = symbols
        self.inputs = {}
        self.sizes = Sizes()
        self.time = 0
        self.is_settled = False

    def entries_by(self, text):
        """The lines of a history, and the cycles, that a line of a person stands for."""
        words = text.split(None, 1)
        kind, rest = words[0], (words[1:] or [""])[0].strip()
        kind = kind.lower() if kind.lower() in OWN_WORDS else kind
        if kind == "cycle":
            self.sizes = self.sizes._replace(cycle=count_of(rest, MOST_STEPS, "the steps of a cycle"))
            return []
        if kind == "ticks":
            length = milliseconds_of(rest)
            self.sizes = self.sizes._replace(tick=count_of(str(length), LONGEST_WAIT, "the longest tick, in milliseconds,"))
            return []
        if kind == "cycles":
            return self.cycles(count_of(rest or "1", MOST_STEPS, "a number of cycles"))
        if kind == "wait":
            return self.wait(milliseconds_of(rest))
        arrival = ARRIVAL.fullmatch(text)
        if arrival:
            return [self.arrival(int(arrival[1]), int(arrival[2] or "0", 16))]
        if kind in ("step", "in", "arrive", "tick", "op"):
            return [self.history_line(text)]
        setting = SETTING.fullmatch(text)
        if setting:
            return self.inputs_by(setting[1], setting[2])
        raise Refused(f"this line says nothing that is known: {text}{hint_on(text)}")

    def cycles(self, count):
        self.is_settled = True
        return [Cycles(count, self.sizes.cycle)]

    def wait(self, length):
        """Ticks with a cycle in front of the first, behind the last, and between them: what changed before is seen at
        once, and what the time brings about is seen before what stands behind the wait. Ticks end at multiples of the
        longest tick, so that what takes whole ones is seen when it is due."""
        lines = [] if self.is_settled else self.cycles(1)
        end = self.time + length
        while self.time < end:
            tick = min(end - self.time, self.sizes.tick - self.time % self.sizes.tick)
            self.time += tick
            lines += [f"tick {tick}", *self.cycles(1)]
        return lines

    def arrival(self, block, value):
        if block not in ARRIVING:
            raise Refused(f"OB {block} doesn't arrive from outside: OB 10 to 17 and 40 to 47 do")
        self.is_settled = False
        return f"arrive {block} {value:08X}" if value else f"arrive {block}"

    def history_line(self, text):
        item = item_of(0, text)
        if isinstance(item, str):
            raise Refused(f"{item}: {text}")
        if item.kind == "in":
            self.inputs[item.number] = item.value
        elif item.kind == "tick":
            self.time += item.number
        self.is_settled = False
        return text

    def inputs_by(self, name, value):
        signal = self.symbols.signal_of(name)
        if signal.operand.is_output:
            raise Refused(f"{signal} is an output, and a history sets inputs")
        written = signal.operand.written(self.inputs, value_of(value, signal.operand))
        self.inputs.update(written)
        self.is_settled = False
        return [f"in {byte} {written[byte]:02X}" for byte in sorted(written)]


def uncommented(line):
    """A line without its comment, which begins with // outside of a quoted name."""
    comment = COMMENT.match(line)
    return (comment[1] if comment else line).strip()


def parts_of(path, text, symbols):
    """What each line that isn't empty stands for."""
    writer, parts = Writer(symbols), []
    for number, line in lines_of(text):
        said = uncommented(line)
        try:
            entries = writer.entries_by(said) if said else []
        except Refused as refusal:
            raise Refused(f"{path}, line {number}: {refusal}") from None
        if line.strip():
            parts.append(Part(number, line.strip(), entries))
    return parts


def with_steps(path, parts, longest, enough):
    """The parts with so many steps for a cycle where none are said. Those that are said are refused where they can't surely hold
    a whole cycle, of which the longest has `longest`."""
    for part in parts:
        if any(isinstance(entry, Cycles) and 0 < entry.steps < 2 * longest for entry in part.entries):
            raise Refused(
                f"{path}, line {part.line}: the `cycle` above this line is too small: a cycle has {longest:,} steps here, so say "
                f"`cycle {enough}`, or leave that line out"
            )
    sized = [[it._replace(steps=it.steps or enough) if isinstance(it, Cycles) else it for it in part.entries] for part in parts]
    return [part._replace(entries=entries) for part, entries in zip(parts, sized)]


def history_of(path, parts):
    """The history that the parts stand for, with cycles by their steps, and each line as a comment over its entries."""
    history, steps = [], 0
    for part in parts:
        history.append(part.text if part.text.startswith("//") else f"// {part.text}")
        for entry in part.entries:
            if isinstance(entry, Cycles) and not entry.steps:
                raise Refused(f"{path}, line {part.line}: how many steps a cycle takes isn't said: a line as `cycle 5000` above this one says it, or --source measures it")
            line = f"step {entry.count * entry.steps}" if isinstance(entry, Cycles) else entry
            steps += steps_of(line)
            if steps > MOST_STEPS:
                raise Refused(
                    f"{path}, line {part.line}: up to here the history has {steps:,} steps, and it may have {MOST_STEPS:,}: "
                    "take less time, or a smaller `cycle`"
                )
            history.append(line)
    return "".join(line + "\n" for line in history)


def steps_of(line):
    """How many steps a right line of a history is."""
    words = line.split()
    return int((words[1:] or ["1"])[0]) if words[0] == "step" else 0
