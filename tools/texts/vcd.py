"""A run as a value change dump, which GTKWave shows: for each signal the last value of each millisecond."""
import re

from texts.happenings import values_by_time

FIRST_MARK, MARKS = 33, 94


def mark_of(number):
    """A short name of printable characters, another one for each number."""
    mark = ""
    while True:
        mark += chr(FIRST_MARK + number % MARKS)
        number = number // MARKS - 1
        if number < 0:
            return mark


def dump(happened, signals):
    lines = ["$timescale 1 ms $end", "$scope module s7 $end"]
    at_times, values = {}, values_by_time(happened, signals)
    for number, signal in enumerate(signals):
        mark, bits = mark_of(number), signal.operand.bits()
        name = re.sub(r"[^!-~]", "_", str(signal.operand).replace(" ", "") + (f"_{signal.name}" if signal.name else ""))
        lines.append(f"$var wire {bits} {mark} {name} $end")
        for time, value in values[signal]:
            at_times.setdefault(time, []).append(f"{value}{mark}" if bits == 1 else f"b{value:b} {mark}")
    lines += ["$upscope $end", "$enddefinitions $end"]
    for time in sorted({0, happened.length, *at_times}):
        lines += [f"#{time}", *at_times.get(time, [])]
    return "\n".join(lines) + "\n"
