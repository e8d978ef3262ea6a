"""The text of a run (docs/FORMATS.md, "Text of a run")."""
import re
from typing import NamedTuple

from texts.tool import Refused, lines_of

OUTPUT = re.compile(r"@(\d+) PQ (\d+) = ([0-9A-F]{2})")
MODE = re.compile(r"@(\d+) MODE (RUN|STARTUP|STOP \d+)(?: AT (.*))?")
OTHER = re.compile(r"@(\d+) (.+)")
END = re.compile(r"END (\d+) (RUN|STARTUP|STOP \d+)")
BLOCK = re.compile(r"DB (\d+) (\d+) ((?:[0-9A-F]{2})+)")


class Shown(NamedTuple):
    """What an entry showed: `kind` is `output` with byte and value, `mode` with mode and place, or `other` with a text."""

    entry: int
    kind: str
    byte: int = 0
    value: int = 0
    text: str = ""
    place: str = ""


class Run(NamedTuple):
    shown: list
    entries: int
    mode: str
    blocks: dict


def shown_by(line):
    """What a line says that an entry showed, or None."""
    match = OUTPUT.fullmatch(line)
    if match:
        return Shown(int(match[1]), "output", byte=int(match[2]), value=int(match[3], 16))
    match = MODE.fullmatch(line)
    if match:
        return Shown(int(match[1]), "mode", text=match[2], place=match[3] or "")
    match = OTHER.fullmatch(line)
    return Shown(int(match[1]), "other", text=match[2]) if match else None


def read_run(path, text):
    """The run that a text spells. Lines of an entry in other forms are kept as they are; any other text is refused."""
    shown, ended, blocks = [], None, {}
    for number, line in lines_of(text):
        showing = None if ended else shown_by(line)
        end = None if ended else END.fullmatch(line)
        block = BLOCK.fullmatch(line) if ended else None
        if showing:
            shown.append(showing)
        elif end:
            ended = int(end[1]), end[2]
        elif block:
            held = blocks.setdefault(int(block[1]), bytearray())
            held += bytes.fromhex(block[3])
        else:
            raise Refused(f"{path}, line {number}: this isn't the text of a run: {line}")
    if ended is None:
        raise Refused(f"{path}: the text of a run has a line END, and this one has none")
    return Run(shown, *ended, blocks)
