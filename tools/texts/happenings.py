"""A run along its history, in time: what changed in which millisecond.

Time is the sum of the ticks so far. Steps take none, so all entries between two ticks stand in one millisecond, and what a
tick shows stands at its end.
"""
from typing import NamedTuple

from texts.operands import IMAGE_BYTES, Operand
from texts.symbols import Signal
from texts.tool import Refused


class Change(NamedTuple):
    """An entry gave bytes of the inputs or of the outputs these values."""

    time: int
    entry: int
    is_output: bool
    written: dict


class Event(NamedTuple):
    """Something else that an entry did, in words."""

    time: int
    entry: int
    text: str
    mode: str = ""


class Happenings(NamedTuple):
    """What happened, by entries, and the milliseconds that the history takes."""

    list: list
    length: int


def happenings(history, run):
    """What happened in a run along its history. The two belong together only where they have as many entries."""
    if history.entries() != run.entries:
        raise Refused(f"the run has {run.entries:,} entries and the history {history.entries():,}: they don't belong together")
    shown_by_entry = {}
    for shown in run.shown:
        shown_by_entry.setdefault(shown.entry, []).append(shown)
    entries_that_show = sorted(shown_by_entry)
    found, time, entry, next_shown = [], 0, 0, 0
    for item in history.items:
        entry += item.count
        if item.kind == "tick":
            time += item.number
        elif item.kind == "in":
            found.append(Change(time, entry, False, {item.number: item.value}))
        elif item.kind == "arrive":
            value = f" with 16#{item.value:08X}" if item.value else ""
            found.append(Event(time, entry, f"OB {item.number} is requested{value}"))
        while next_shown < len(entries_that_show) and entries_that_show[next_shown] <= entry:
            at = entries_that_show[next_shown]
            next_shown += 1
            written = {shown.byte: shown.value for shown in shown_by_entry[at] if shown.kind == "output"}
            if written:
                found.append(Change(time, at, True, written))
            for shown in shown_by_entry[at]:
                if shown.kind == "mode":
                    place = f" at {shown.place}" if shown.place else ""
                    found.append(Event(time, at, shown.text + place, shown.text))
                elif shown.kind == "other":
                    found.append(Event(time, at, shown.text))
    return Happenings(found, time)


def replayed(happened, signals):
    """Each happening with those of the signals that it changed, in their order, each with its old and new value."""
    by_byte = {}
    for place, signal in enumerate(signals):
        for byte in signal.operand.bytes():
            by_byte.setdefault((signal.operand.is_output, byte), []).append((place, signal))
    images = {False: {}, True: {}}
    for it in happened.list:
        changed = []
        if isinstance(it, Change):
            image = images[it.is_output]
            concerned = sorted({place: signal for byte in it.written for place, signal in by_byte.get((it.is_output, byte), ())}.items())
            old = [signal.operand.value(image) for _, signal in concerned]
            image.update(it.written)
            new = [signal.operand.value(image) for _, signal in concerned]
            changed = [(signal, one, other) for (_, signal), one, other in zip(concerned, old, new) if one != other]
        yield it, changed


def signals_that_change(happened, symbols):
    """A signal for each symbol that changes, and for each bit, or byte of the periphery, that changes and that no symbol
    holds: inputs first, by address."""
    held = {place for signal in symbols.signals for place in places(signal.operand)}
    written = {(it.is_output, byte) for it in happened.list if isinstance(it, Change) for byte in it.written}
    unnamed = [Signal(operand) for is_output, byte in written for operand in single_operands(is_output, byte)]
    candidates = symbols.signals + [it for it in unnamed if held.isdisjoint(places(it.operand))]
    found = {signal for _, changed in replayed(happened, candidates) for signal, _, _ in changed}
    return sorted(found, key=lambda it: (it.operand.is_output, it.operand.byte, it.operand.bit, it.operand.size, it.name))


def single_operands(is_output, byte):
    """The bits of a byte, or the byte itself where it lies beyond the process image."""
    if byte in IMAGE_BYTES:
        return [Operand(is_output, False, 0, byte, bit) for bit in range(8)]
    return [Operand(is_output, True, 1, byte, 0)]


def places(operand):
    """The bits that an operand holds."""
    bits = [operand.bit] if operand.size == 0 else range(8)
    return [(operand.is_output, byte, bit) for byte in operand.bytes() for bit in bits]


def values_by_time(happened, signals):
    """For each signal its value at the end of each millisecond in which it has changed, from 0 on."""
    values = {signal: {0: 0} for signal in signals}
    for it, changed in replayed(happened, signals):
        for signal, _, new in changed:
            values[signal][it.time] = new
    return {signal: without_repeats(by_time) for signal, by_time in values.items()}


def pulses_by_time(happened, signals):
    """For each signal the milliseconds in which it has changed and at whose end it is what it was before."""
    before, pulses = {}, {signal: [] for signal in signals}
    for it, changed in replayed(happened, signals):
        for signal, old, new in changed:
            began = before.setdefault((signal, it.time), old)
            if new == began:
                pulses[signal].append(it.time)
            elif pulses[signal][-1:] == [it.time]:
                pulses[signal].pop()
    return pulses


def modes_by_time(happened, at_end="RUN"):
    """The mode at the end of each millisecond in which it has changed, without the place; from 0 on. A run tells the one that
    it begins with by the change to RUN, which follows STARTUP alone; where it tells no change that is the one at the end."""
    told = [it for it in happened.list if isinstance(it, Event) and it.mode]
    first = told[0].mode if told else at_end
    modes = {0: ("STARTUP" if first == "RUN" else "RUN") if told else first}
    modes.update((it.time, it.mode) for it in told)
    return without_repeats(modes)


def without_repeats(by_time):
    kept = []
    for time, value in sorted(by_time.items()):
        if not kept or kept[-1][1] != value:
            kept.append((time, value))
    return kept
