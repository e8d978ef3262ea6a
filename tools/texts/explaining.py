"""What an answer means that isn't the result: sentences for a person, from the repository's own tables."""
import errno
import os
import re
import textwrap

from texts import documents
from texts.histories import read_history
from texts.places import read_by_place
from texts.tool import decoded, on_one_line
from texts.words import read_call

WIDTH = 110
REFUSED_LINE = re.compile(r"(\w+(?: \d+)?) refused: line (\d+) rule (\d+)\n?")
REFUSED_IMAGE = re.compile(r"image refused: offset (\d+) code (\d+)\n?")
TOO_LONG = re.compile(r"too long: (\w+(?: \d+)?)\n?")
WHY_NOT = {errno.ESPIPE: "it is a pipe or a terminal; write its text into a file first", errno.ENOENT: "there is no such file"}


def explained(answer, words):
    """Lines that explain an answer of the program to these words; none where there is nothing to explain."""
    call = read_call(words)
    explain = {1: of_words, 2: of_line, 3: of_image, 4: of_line, 5: of_read_fault, 8: of_length}.get(answer.status)
    return explain(call, answer.text) if explain else []


def rule_lines(row, number):
    """A rule in a sentence, with its examples and where it stands."""
    if row is None:
        return [f"docs/REFUSALS.md says what rule {number} is"]
    says, example = row.columns[1].lower(), row.columns[2].partition(" ")[0].lower()
    return [
        f"rule {number}, {says}: {documents.plain(row.cells[1])}",
        f"{example}: {documents.plain(row.cells[2])}",
        f'docs/REFUSALS.md, "{row.heading}"',
    ]


def shown(lines):
    """The lines under one another, behind the program's name; sentences are broken, quoted lines are not."""
    broken = [part for line in lines for part in ([line] if line.startswith(" ") else textwrap.wrap(line, WIDTH))]
    return "".join(f"{'    ' if number else 's7: '}{line}\n" for number, line in enumerate(broken))


def of_words(call, text):
    if call.command is None:
        return ["no command is named; the calls are", *documents.calls_in_help()]
    own = documents.calls_in_help(call.command)
    if not own:
        return [f"there is no command {call.command}; the calls are", *documents.calls_in_help()]
    return ["the call is written so, with options as ./s7 --help tells them", *own]


def of_line(call, text):
    match = REFUSED_LINE.match(text)
    if not match:
        return []
    kind, line, rule = match[1], int(match[2]), int(match[3])
    path = call.inputs().get(kind)
    lines = said_of_line(path, kind, line) if path else []
    return lines + rule_lines(documents.rule(rule, kind), rule)


def said_of_line(path, kind, number):
    """The file and the line that is refused, and of a history or stimuli what is wrong there, where that is seen."""
    try:
        data = read_by_place(path, documents.limit(kind))
    except (KeyError, OSError):
        return [f"{path}, line {number}"]
    wrong = read_history(data.decode("latin-1")).wrong if kind in ("history", "stimuli") else None
    why = f" {wrong.why}" if wrong and wrong.line == number else ""
    lines = data.split(b"\n")
    return [f"{path}, line {number}:{why}", *(quoted(lines[number - 1]) if number <= len(lines) else [])]


def quoted(line):
    return ["    " + on_one_line(decoded(line).rstrip())] if line.strip() else []


def of_image(call, text):
    match = REFUSED_IMAGE.match(text)
    if not match:
        return []
    offset, code = match.groups()
    path, row = call.inputs().get("image", "the image"), documents.fault(code)
    lines = [f"{path}, byte {offset}:"]
    return lines + ([f"fault {code}: {documents.plain(row.cells[1])}", f'docs/FORMATS.md, "{row.heading}"'] if row else [])


def of_read_fault(call, text):
    for kind, path in call.inputs().items():
        try:
            read_by_place(path, 1)
        except OSError as error:
            return [f"the {kind} {path} can't be read: {WHY_NOT.get(error.errno, error.strerror)}"]
    return []


def of_length(call, text):
    match = TOO_LONG.match(text)
    if match and match[1] == "result" and "source" in call.inputs():
        return [f"the translation of {call.inputs()['source']} would have more than {documents.limit('result'):,} bytes"]
    if match and match[1] == "list" and "image" in call.inputs():
        return [f"a text of the listing of {call.inputs()['image']} would have more than {documents.limit('list'):,} bytes"]
    path = call.inputs().get(match[1]) if match else None
    if not path:
        return []
    return [f"{path} has {os.stat(path).st_size:,} bytes, and its limit ({match[1]}) is {documents.limit(match[1]):,}"]
