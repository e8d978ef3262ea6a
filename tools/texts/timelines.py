"""A run as lines that a person reads."""
from texts.happenings import Event, replayed


def time_text(milliseconds):
    return f"{milliseconds // 1000}.{milliseconds % 1000:03d} s"


HINTS = {"STOP 9": " (is `cycle` in the steps too small? docs/FORMATS.md has every reason of cause 9)"}


def lines_of_run(happened, run, signals, with_entries=False):
    """One line for each change of a signal and each event, by time, and how it ended with the data blocks. With entries the
    number of the one that made it stands behind the time."""
    width = len(time_text(happened.length))
    entry_width = len(f"@{run.entries}")

    def line(time, text, entry=run.entries):
        number = f"  {f'@{entry}':>{entry_width}}" if with_entries else ""
        return f"{time_text(time):>{width}}{number}  {text}"

    for it, changed in replayed(happened, signals):
        if isinstance(it, Event):
            yield line(it.time, it.text + HINTS.get(it.mode, ""), it.entry)
        for signal, old, new in changed:
            yield line(it.time, f"{signal} {signal.shown(old)} -> {signal.shown(new)}", it.entry)
    yield line(happened.length, f"the end, in {run.mode}, after {run.entries:,} entries")
    for number, data in sorted(run.blocks.items()):
        for at in range(0, len(data), 16):
            yield line(happened.length, f"DB {number} from byte {at}: {data[at:at + 16].hex(' ', -2).upper()}")
