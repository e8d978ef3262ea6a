"""Runs of whole cycles, for comparing and measuring: a source with a gate in front of its OB 1.

Where a cycle ends doesn't show in the text of a run. So a copy of the source is run, whose OB 1 begins with statements that
wait in a loop: they show by a peripheral output byte that a cycle point was reached, and go on only where a peripheral input
byte is 1. A history lets them go on for one cycle at a time. The statements leave all registers and the status word as they
are at the begin of an organization block, where all of them are 0; the source names neither of the two bytes.
"""
import os
import re
import tempfile
from typing import NamedTuple, Optional

from texts import programs, tool
from texts.clauses import Clause, block_at, clauses_of
from texts.explaining import explained
from texts.histories import MOST_STEPS
from texts.runs import Run, read_run
from texts.steps import Cycles, steps_of
from texts.symbols import folded, read_blocks
from texts.tool import Refused

# INC makes ACCU 1 of 0 the 1 that shows. LOOP takes 1 from what was read and goes back unless that gives 0, and touches no bit of
# the status word; PUSH then makes ACCU 2 a 0 as well.
GATE = "INC 1; T PQB {output}; {label}: L PIB {input}; LOOP {label}; T PQB {output}; PUSH;"
NAMED = re.compile(rb"\bP([IQ])([BWD])\s*([0-9]{1,5})", re.IGNORECASE)
LENGTHS = {b"B": 1, b"W": 2, b"D": 4}
BYTES = range(767, 255, -1)
# so many steps it is open: enough for the loop to see it wherever it is, and for one cycle alone to pass
OPEN = 4
LEAST, LARGEST = 20, 100_000
# the cycle that waits at the gate has read its inputs already, so one more brings what has changed since
BEHIND_STALE = 1


class Source(NamedTuple):
    """A source that is read once, and the path of its symbols, or None."""

    path: str
    data: bytes
    symbols: Optional[str]


class Gate(NamedTuple):
    """The peripheral input byte that opens it, the output byte that is 1 at it, and the label of its loop."""

    input: int
    output: int
    label: str


class Opening(NamedTuple):
    """The gate is opened: the entry that opens it, the one behind which it is closed again, the last entry of the steps in
    which the cycle has to end, and the line of the person that asked for the cycle."""

    entry: int
    closed: int
    last: int
    line: int


class Sizes(NamedTuple):
    """In how many steps a cycle surely ends: the first one with the startup, and the others."""

    first: int
    later: int


class Measured(NamedTuple):
    """A run by whole cycles: its history, the run without the gate's output, the steps of each cycle without the gate's, and the
    statements of the source where it has interrupts, else 0."""

    history: str
    run: Run
    cycles: list
    interrupting: int

    def enough(self):
        """Steps that hold the rest of a cycle and a whole one, and each statement that interrupts may have, if none is in a loop."""
        return 2 * max(self.cycles) + self.interrupting


def read_source(path, symbols):
    return Source(path, tool.read_bytes(path), symbols)


def free_gate(sources, parts):
    """A gate of bytes that none of these sources names, nor their symbols, nor the lines of a person."""
    texts = [it.data for it in sources] + [tool.read_bytes(it.symbols) for it in sources if it.symbols]
    taken = {b"I": set(), b"Q": set()}
    for text in texts:
        for area, width, number in NAMED.findall(text):
            taken[area.upper()].update(range(int(number), int(number) + LENGTHS[width.upper()]))
    taken[b"I"].update(int(entry.split()[1]) for part in parts for entry in part.entries if isinstance(entry, str) and entry.startswith("in "))
    free = {area: next((byte for byte in BYTES if byte not in bytes_), None) for area, bytes_ in taken.items()}
    if None in free.values():
        raise Refused("each peripheral byte from 256 to 767 is named, and one has to be free to tell where a cycle ends")
    words = {word.lower() for text in texts for word in re.findall(rb"[A-Za-z_]\w*", text)}
    label = next(label for label in (f"g{number}" for number in range(100, 1000)) if label.encode() not in words)
    return Gate(free[b"I"], free[b"Q"], label)


class Heads(NamedTuple):
    """The clause that begins OB 1, or None, and whether there are other organization blocks, which may interrupt it."""

    cycle: Optional[Clause]
    has_others: bool


def heads_of(clauses, blocks):
    """The heads of organization blocks. `blocks` are those that symbols name."""
    heads = [it for it in clauses if it.is_head() and it.tokens[0].upper == b"ORGANIZATION_BLOCK"]
    names = [tool.decoded(block_at(it.tokens[1:])[0]) for it in heads]
    cycles = [head for head, name in zip(heads, names) if re.fullmatch(r"OB *0*1", blocks.get(folded(name), name))]
    return Heads(cycles[0] if cycles else None, len(heads) > len(cycles[:1]))


def with_gate(source, clauses, head, gate):
    """The source with a gate at the begin of its OB 1, on the line of BEGIN, so that no line has another number; without an
    OB 1 it gets one that is a gate alone."""
    statements = GATE.format(**gate._asdict()).encode()
    if head is None:
        return source + b"\nORGANIZATION_BLOCK OB 1 BEGIN " + statements + b" END_ORGANIZATION_BLOCK\n"
    begin = next((it for it in clauses if it.block == head.begin and it.tokens[0].upper == b"BEGIN"), None)
    return source[: begin.end] + b" " + statements + source[begin.end :] if begin else source


class Script:
    """Writes a history that opens the gate once for each cycle, and notes where."""

    def __init__(self, gate, sizes):
        self.gate, self.sizes = gate, sizes
        self.lines, self.entries, self.steps, self.openings = [], 0, 0, []

    def add(self, line):
        self.lines.append(line)
        self.steps += steps_of(line)
        self.entries += steps_of(line) or 1

    def settle(self):
        """Steps in which what was requested ends, and the startup and the first cycle point before all."""
        self.add(f"step {self.sizes.later if self.openings else self.sizes.first}")

    def open(self, line):
        size = self.sizes.later if self.openings else self.sizes.first
        self.add(f"in {self.gate.input} 01")
        entry = self.entries
        self.add(f"step {OPEN}")
        closed = self.entries
        self.add(f"in {self.gate.input} 00")
        self.add(f"step {size}")
        self.openings.append(Opening(entry, closed, self.entries, line))


def script_of(path, parts, gate, sizes, has_interrupts):
    """The script of the parts. Where a source has interrupts they may run before the gate is opened."""
    script, is_settled = Script(gate, sizes), False
    for part in parts:
        for entry in part.entries:
            if not isinstance(entry, Cycles):
                if steps_of(entry):
                    raise Refused(
                        f"{path}, line {part.line}: whole cycles are counted here, so `{entry}` says nothing: "
                        "write `wait 2s` or `cycles 3` in its place (tools/history --help)"
                    )
                script.add(entry)
                is_settled = False
                continue
            if not script.openings or has_interrupts and not is_settled:
                script.settle()
            is_settled = True
            for _ in range(entry.count + BEHIND_STALE):
                script.open(part.line)
    return script


def seen(source, run, gate):
    """What the gate showed, as entries and whether a cycle stands at it, and the entry that stopped the controller, if one did."""
    if any(it.value > 1 for it in run.shown if it.kind == "output" and it.byte == gate.output):
        raise Refused(f"{source.path} writes PQB {gate.output} by a pointer, the byte that tells here where a cycle ends")
    shown = [(it.entry, it.value == 1) for it in run.shown if it.kind == "output" and it.byte == gate.output]
    stop = next((it.entry for it in run.shown if it.kind == "mode" and it.text.startswith("STOP")), None)
    return shown, stop


def check(source, run, gate, openings):
    """The steps of each cycle, and the number of the opening whose cycle hasn't ended in time, if there is one."""
    shown, stop = seen(source, run, gate)
    at, cycles, is_there = 0, [], False
    for number, opening in enumerate(openings):
        while at < len(shown) and shown[at][0] <= opening.entry:
            is_there = shown[at][1]
            at += 1
        if stop is not None and stop <= opening.last:
            return cycles, None
        passing = shown[at : at + 2]
        ends = [entry for entry, _ in passing]
        if not is_there or [it for _, it in passing] != [False, True] or ends[0] > opening.closed or ends[1] > opening.last:
            return cycles, number
        cycles.append(ends[1] - ends[0] - OPEN)
    return cycles, None


class Pace:
    """Finds in how many steps a cycle ends: from a guess on, up to what 1,000,000 steps have room for."""

    def __init__(self, guess, total):
        """`total` says how many steps sizes come to."""
        self.total = total
        while guess > LEAST and total(Sizes(guess, guess)) > MOST_STEPS:
            guess = max(guess // 2, LEAST)
        self.sizes = Sizes(guess, guess)

    def size(self, failed):
        return self.sizes.later if failed else self.sizes.first

    def grow(self, failed):
        """Gives more steps to the cycle of the opening that failed and, where it isn't the first, to all others but the first.
        False where there is no room."""
        name, now = "later" if failed else "first", self.size(failed)
        weight = max(self.total(self.sizes._replace(**{name: now + 1})) - self.total(self.sizes), 1)
        room = min((MOST_STEPS - self.total(self.sizes)) // weight, LARGEST - now)
        self.sizes = self.sizes._replace(**{name: now + max(min(3 * now, room), 0)})
        return room > 0


def run_by_cycles(source, steps_path, parts, gate):
    """The run of a source along the parts by whole cycles: as many in each place as for every other source."""
    clauses = clauses_of(source.data)
    heads = heads_of(clauses, read_blocks(source.symbols))

    def script(sizes):
        return script_of(steps_path, parts, gate, sizes, heads.has_others)

    pace = Pace(source.data.count(b";") + LEAST, lambda sizes: script(sizes).steps)
    with tempfile.TemporaryDirectory(prefix="s7-gate-") as room:
        path = os.path.join(room, "source")
        with open(path, "wb") as file:
            file.write(with_gate(source.data, clauses, heads.cycle, gate))
        while True:
            written = script(pace.sizes)
            text = "".join(line + "\n" for line in written.lines)
            run = run_of(source, path, text, os.path.join(room, "history"))
            cycles, failed = check(source, run, gate, written.openings)
            if failed is None:
                return Measured(text, without_gate(run, gate), cycles, source.data.count(b";") if heads.has_others else 0)
            if not pace.grow(failed):
                raise Refused(
                    f"{source.path}: of the cycles of {steps_path}, line {written.openings[failed].line}, one doesn't end within "
                    f"{pace.size(failed):,} steps, and there is no room for more: does a loop wait there, or is it too much time for "
                    f"{MOST_STEPS:,} steps in all?"
                )


def without_gate(run, gate):
    return run._replace(shown=[it for it in run.shown if not (it.kind == "output" and it.byte == gate.output)])


def run_of(source, path, history, history_path):
    """The run of the file at `path`, which stands for the source; one that is refused is told by the source itself."""
    tool.write_text(history_path, history)
    symbols = ["--symbols", source.symbols] if source.symbols else []
    answer = programs.call("go", path, history_path, *symbols)
    if answer.status:
        words = ["check", source.path, *symbols]
        own = programs.call(*words)
        told = own if own.status else answer
        said = told.text.strip() or f"the program ended with status {told.status}"
        raise Refused("\n".join([f"{source.path}: {said}", *explained(told, words)]))
    return read_run(source.path, answer.text)
