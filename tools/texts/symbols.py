"""A symbols file (docs/FORMATS.md, "Symbols file"): the names of inputs and outputs."""
import csv
import re
from typing import NamedTuple

from texts.operands import Operand, hint_for, operand_of
from texts.tool import Refused, lines_of, on_one_line, read_text

BYTE_ORDER_MARK = "\ufeff"
BLOCK = re.compile(r"[ \t]*(OB|FB|FC|SFC|DB|UDT)[ \t]*([0-9]{1,9})")


class Signal(NamedTuple):
    """An operand, with its name and type where a symbols file gives it one."""

    operand: Operand
    name: str = ""
    type_name: str = ""

    def __str__(self):
        return f'{self.operand} "{on_one_line(self.name)}"' if self.name else str(self.operand)

    def shown(self, value):
        return self.operand.shown(value, self.type_name)


class Symbols:
    """The symbols of inputs and outputs. Names are compared without case of ASCII letters."""

    def __init__(self, signals=()):
        self.signals = list(signals)
        self.by_name = {folded(signal.name): signal for signal in self.signals}

    def signal_of(self, text):
        """The signal that an operand or a name spells, the name with or without quotes."""
        operand = operand_of(text)
        if operand:
            return next((it for it in self.signals if same_place(it.operand, operand)), Signal(operand))
        name = text.strip()
        if len(name) > 1 and name[0] == name[-1] == '"':
            name = name[1:-1]
        if folded(name) not in self.by_name:
            hint = hint_for(text)
            raise Refused(f"{text} is neither an input or output, as I 0.1 or QW 4, nor a symbol of one{': ' * bool(hint)}{hint}")
        return self.by_name[folded(name)]


def folded(name):
    return "".join(char.lower() if char.isascii() else char for char in name)


def same_place(one, other):
    """Whether two operands are the same bits, whether or not they are written as peripheral."""
    return one._replace(is_peripheral=False) == other._replace(is_peripheral=False)


def records(path):
    """Name, address and type of each line of a file; without one there are none. A line that isn't four fields refuses the
    file, as it does in the program (rule 14); the other rules are the program's to judge."""
    for number, line in lines_of(read_text(path)) if path else []:
        if not line:
            continue
        fields = next(csv.reader([line.lstrip(BYTE_ORDER_MARK)]), [])
        if len(fields) != 4:
            raise Refused(f"{path}, line {number}: a symbol has four fields: name, address, type, comment")
        yield tuple(field.rstrip(" \t") for field in fields[:3])


def read_symbols(path):
    """The symbols of a file that name inputs and outputs."""
    operands = ((operand_of(address), name, type_name) for name, address, type_name in records(path))
    return Symbols(Signal(*it) for it in operands if it[0])


def read_blocks(path):
    """The symbols of a file that name blocks: the blocks, as OB 1, by their folded names."""
    addresses = ((folded(name), BLOCK.fullmatch(address)) for name, address, _ in records(path))
    return {name: f"{block[1]} {int(block[2])}" for name, block in addresses if block}
