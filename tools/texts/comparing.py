"""Two runs along one history, by what stands at the end of each millisecond."""
from texts.happenings import modes_by_time, signals_that_change, values_by_time
from texts.timelines import time_text


def differences(old, new):
    """Where two lists of times and values differ: from when, to when (None: to the end), and the two values."""
    old_at, new_at = dict(old), dict(new)
    before = after = None
    found = []
    for time in sorted({*old_at, *new_at}):
        before, after = old_at.get(time, before), new_at.get(time, after)
        goes_on = bool(found) and found[-1][1] is None
        if goes_on and found[-1][2:] == (before, after):
            continue
        if goes_on:
            found[-1] = (found[-1][0], time, *found[-1][2:])
        if before != after:
            found.append((time, None, before, after))
    return found


def outputs_that_change(happened_in_both, symbols):
    """Each output that changes in one of the runs, once."""
    signals = {it for happened in happened_in_both for it in signals_that_change(happened, symbols) if it.operand.is_output}
    return sorted(signals, key=lambda it: (it.operand.byte, it.operand.bit, it.operand.size, it.name))


def differing_bytes(old, new):
    """The bytes of data blocks that differ: block, byte, and the two values, `--` for a byte that isn't there."""
    for number in sorted({*old, *new}):
        one, other = old.get(number, b""), new.get(number, b"")
        for byte in range(max(len(one), len(other))):
            pair = [f"{block[byte]:02X}" if byte < len(block) else "--" for block in (one, other)]
            if pair[0] != pair[1]:
                yield number, byte, pair[0], pair[1]


def lines_of_differences(old, new, symbols):
    """A line for each time in which an output or the mode differs, by time, and for each byte of a data block at the end.
    `old` and `new` are runs with what happened in them."""
    found = []
    signals = outputs_that_change((old.happened, new.happened), symbols)
    old_values, new_values = (values_by_time(it.happened, signals) for it in (old, new))
    for signal in signals:
        differing = differences(old_values[signal], new_values[signal])
        found += [(begin, end, str(signal), signal.shown(one), signal.shown(other)) for begin, end, one, other in differing]
    modes = differences(*(modes_by_time(it.happened, it.run.mode) for it in (old, new)))
    found += [(begin, end, "the mode", one, other) for begin, end, one, other in modes]
    for begin, end, what, one, other in sorted(found, key=lambda it: it[0]):
        until = time_text(end) if end is not None else "the end"
        yield f"{time_text(begin)} to {until}  {what}: old {one}, new {other}"
    for number, byte, one, other in differing_bytes(old.run.blocks, new.run.blocks):
        yield f"at the end  DB {number} byte {byte}: old {one}, new {other}"
