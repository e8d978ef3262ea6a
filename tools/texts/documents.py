"""What the repository's own texts say: the help of the program, and the tables of docs/REFUSALS.md and docs/FORMATS.md."""
import re
from typing import NamedTuple

from texts.programs import TOP
from texts.tool import Refused

HELP_FILE = TOP / "crates" / "s7_cli" / "src" / "help.rt"
TEXT_RULES = "Rules of histories, stimuli and scripts"
# where the rules of a file stand that is no source and no symbols file
RULES_OF = {"history": TEXT_RULES, "stimuli": TEXT_RULES, "vars": TEXT_RULES, "script": TEXT_RULES, "certificate": "Rules of certificates"}
CONSTANTS = {"help": "HELP", "version": "VERSION"}
ESCAPES = {"\\n": "\n", '\\"': '"', "\\\\": "\\"}


class Row(NamedTuple):
    """A row of a table: the heading above it, the names of the columns, and the cells."""

    heading: str
    columns: list
    cells: list


def answer_to(question):
    """The text that the program has for `help` or `version`, out of the file that it is compiled from."""
    text = HELP_FILE.read_text(encoding="utf-8")
    constant = re.search(rf'^const {CONSTANTS[question]}: &str = "((?:[^"\\]|\\.)*)";', text, re.MULTILINE | re.DOTALL)
    if not constant:
        raise Refused(f"{HELP_FILE} has no text for {question}")
    joined = re.sub(r"\\\n\s*", "", constant[1])
    return re.sub(r'\\[n"\\]', lambda escape: ESCAPES[escape[0]], joined)


def calls_in_help(command=None):
    """The lines of the help that say how the program is called: those of a command, or all."""
    calls = re.findall(r"^  s7 .*(?:\n {5,}\S.*)*", answer_to("help").partition("\nExample:")[0], re.MULTILINE)
    return [line for call in calls if command is None or call.split()[1] == command for line in call.splitlines()]


def short_rule(number):
    """What the help says of a rule, in a few words."""
    found = re.search(rf"^ {{1,3}}{number}  (.+)$", answer_to("help"), re.MULTILINE)
    return found[1] if found else "docs/REFUSALS.md says what it is"


def limits():
    """The most bytes of each kind of file, by the help."""
    found = re.findall(r"too long: (\w+)(?: k)? \(([0-9,]+) bytes\)", answer_to("help"))
    return {kind: int(number.replace(",", "")) for kind, number in found}


def limit(kind):
    """The most bytes of a file that is read as this, also as `script 2`."""
    return limits()[kind.partition(" ")[0]]


def rows(name, first, second):
    """The rows of the tables of a document whose columns begin so."""
    heading, columns, found = "", None, []
    for line in (TOP / "docs" / name).read_text(encoding="utf-8").splitlines():
        if line.startswith("#"):
            heading = line.lstrip("# ")
        cells = [cell.strip() for cell in line.strip("|").split(" | ")] if line.startswith("|") else None
        if cells is None or columns is None:
            columns = cells
        elif columns[:2] == [first, second] and not cells[0].startswith("--"):
            found.append(Row(heading, columns, cells))
    return found


def rule(number, kind="source"):
    """The row of a rule in docs/REFUSALS.md for this kind of file, or None."""
    of_text = RULES_OF.get(kind.partition(" ")[0])
    found = [row for row in rows("REFUSALS.md", "Rule", "Broken where") if row.cells[0] == str(number)]
    return next((row for row in found if (row.heading if row.heading in RULES_OF.values() else None) == of_text), None)


def fault(code):
    """The row of a fault of an image, or None."""
    return next((row for row in rows("FORMATS.md", "Code", "Fault, and its offset") if row.cells[0] == str(code)), None)


def plain(text):
    """The text of a cell without links."""
    return re.sub(r"\[([^]]*)\]\(([^)#]*)[^)]*\)", r"\1 (docs/\2)", text)
