"""Operands of inputs and outputs: bits, bytes, words and double words, and their values as a person writes them."""
import re
from typing import NamedTuple

from texts.tool import Refused

BYTES_BY_LETTER = {"": 0, "B": 1, "W": 2, "D": 4}
SPELLED = re.compile(r"(PI|PQ|I|Q)\s*([BWD]?)\s*(\d{1,5})(?:\.([0-7]))?", re.IGNORECASE)
IMAGE_BYTES = range(0, 128)
PERIPHERAL_BYTES = (*range(0, 128), *range(256, 768))
BITS = {"0": 0, "1": 1, "FALSE": 0, "TRUE": 1, "2#0": 0, "2#1": 1, "16#0": 0, "16#1": 1}
NEARLY = re.compile(r"(P?)(E|A|I|Q|M|T|C|Z|DB|DI|L)\s*([BWDX]?)\s*([0-9]+)(?:\.(?:D[BI][BWDX])?\s*([0-9]*)[.0-9]*)?", re.IGNORECASE)
GERMAN = {"E": "I", "A": "Q"}
SIGNED_TYPES = ("INT", "DINT", "TIME")


class Operand(NamedTuple):
    """A bit (size 0) or so many bytes from `byte` on, among the inputs or the outputs. Peripheral ones are told apart
    only by their letters: byte 4 of the peripheral outputs is what Q shows at the end of a cycle."""

    is_output: bool
    is_peripheral: bool
    size: int
    byte: int
    bit: int

    def __str__(self):
        area = ("P" if self.is_peripheral else "") + ("Q" if self.is_output else "I")
        if self.size == 0:
            return f"{area} {self.byte}.{self.bit}"
        letter = {size: letter for letter, size in BYTES_BY_LETTER.items()}[self.size]
        return f"{area}{letter} {self.byte}"

    def bytes(self):
        return range(self.byte, self.byte + max(self.size, 1))

    def bits(self):
        return 8 * self.size or 1

    def value(self, image):
        """The number at the operand in `image`, which maps bytes to values and has 0 for the others."""
        if self.size == 0:
            return image.get(self.byte, 0) >> self.bit & 1
        return int.from_bytes(bytes(image.get(byte, 0) for byte in self.bytes()), "big")

    def written(self, image, value):
        """The bytes that change in `image` by writing the number, as a map."""
        if self.size == 0:
            others = image.get(self.byte, 0) & ~(1 << self.bit)
            return {self.byte: others | value << self.bit}
        return dict(zip(self.bytes(), value.to_bytes(self.size, "big")))

    def shown(self, value, type_name=""):
        """The number as a person reads it: signed for INT, DINT and TIME, else in base 16, a bit as it is."""
        if self.size == 0:
            return str(value)
        if type_name in SIGNED_TYPES:
            return str(value - (1 << self.bits()) if value >> (self.bits() - 1) else value)
        return f"16#{value:0{2 * self.size}X}"


def operand_of(text):
    """The operand that a text spells, as `I 0.1`, `QW4` or `PIW 256`, or None."""
    match = SPELLED.fullmatch(text.strip())
    if not match:
        return None
    area, letter, byte, bit = match.groups()
    is_peripheral, is_bit = len(area) == 2, bit is not None
    if is_bit == bool(letter) or (is_bit and is_peripheral):
        return None
    operand = Operand(area[-1].upper() == "Q", is_peripheral, BYTES_BY_LETTER[letter.upper()], int(byte), int(bit or 0))
    there = PERIPHERAL_BYTES if is_peripheral else IMAGE_BYTES
    return operand if all(byte in there for byte in operand.bytes()) else None


def hint_for(text):
    """What is wrong with a text that looks like an operand and isn't one of inputs or outputs, or nothing."""
    match = NEARLY.fullmatch(text.strip())
    if not match:
        return ""
    peripheral, area, letter, byte, bit = match.groups()
    area = area.upper()
    if area in GERMAN:
        return f"{area} is a German address, the English one begins with {peripheral.upper()}{GERMAN[area]}"
    if area not in ("I", "Q"):
        return "only inputs come from outside, and only inputs and outputs are shown"
    if bit and int(bit) > 7:
        return "bits are 0 to 7"
    if peripheral:
        return "peripheral places are bytes, words and double words among the bytes 0 to 127 and 256 to 767"
    return "the bytes are 0 to 127" if bit or letter else "a bit has two numbers, as I 0.1"


def value_of(text, operand):
    """The number that a text spells for an operand: `1`, `-5`, `16#07`, `W#16#0007`, `2#101`, TRUE or FALSE."""
    word = text.strip().upper().replace("_", "")
    if operand.size == 0 and word not in BITS:
        raise Refused(f"{text} is no value of {operand}: a bit is 0 or 1")
    based = re.fullmatch(r"(?:(?:B|BYTE|W|WORD|DW|DWORD)#)?(16|2)#([0-9A-F]+)", word)
    try:
        if operand.size == 0:
            value = BITS[word]
        elif based:
            value = int(based[2], int(based[1]))
        else:
            value = int(re.fullmatch(r"[+-]?[0-9]+", word)[0])
    except (TypeError, ValueError):
        raise Refused(f"{text} is no value: 1, -5, 16#07 or 2#101 is one") from None
    least = -(1 << operand.bits()) // 2
    if not least <= value < 1 << operand.bits():
        raise Refused(f"{text} doesn't fit into {operand}, which has {operand.bits()} bits")
    return value % (1 << operand.bits())
