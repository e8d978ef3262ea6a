"""All refusals of a source, one after the other: what is refused is left out, and the rest is checked again."""
import csv
import os
import re
from typing import NamedTuple

from texts import programs
from texts.clauses import block_at, clauses_of
from texts.histories import ARRIVING
from texts.tool import Refused, decoded

REFUSED = re.compile(r"(symbols|source) refused: line (\d+) rule (\d+)\n")
NO_TOKEN, NO_END, MISPLACED, ENDS_INSIDE = 1, 2, 11, 13
RULES_OF_CLAUSES = (10, 11, 12, 13)
INITIAL_VALUE = 41
RULES_OF_NAMES = (20, 23, 34)
MARKS = b":= : ; , . ( ) [ ] = + - < > * /".split()
RULES_OF_NUMBERS = (22, 44)
NUMBERS = {
    b"ORGANIZATION_BLOCK": (b"OB", ARRIVING),
    b"FUNCTION": (b"FC", range(1, 2048)),
    b"FUNCTION_BLOCK": (b"FB", range(1, 2048)),
    b"DATA_BLOCK": (b"DB", range(1, 2048)),
    b"TYPE": (b"UDT", range(1, 2048)),
}
CLOSERS = (b"", b"BEGIN ", b"END_VAR BEGIN ", b"END_STRUCT; BEGIN ", b"END_STRUCT; END_VAR BEGIN ")


class Refusal(NamedTuple):
    """What is refused: the symbols or the source, by line and rule. `after` is the line in which something was left out
    that is named here, so that this refusal may only come from that, or 0."""

    kind: str
    line: int
    rule: int
    after: int


class Texts(NamedTuple):
    source: bytes
    symbols: bytes


def blanked(data, begin, end):
    """The bytes with blanks in the place of a part, whose line ends stay."""
    return data[:begin] + re.sub(rb"[^\r\n]", b" ", data[begin:end]) + data[end:]


def replaced(data, begin, end, by):
    """The bytes with others in the place of a part, whose line ends stay."""
    return data[:begin] + by + re.sub(rb"[^\r\n]", b"", data[begin:end]) + data[end:]


def line_blanked(data, line):
    begin = sum(len(it) + 1 for it in data.split(b"\n")[: line - 1])
    end = data.find(b"\n", begin)
    return blanked(data, begin, end if end >= 0 else len(data))


def line_emptied(data, line):
    lines = data.split(b"\n")
    lines[line - 1] = b""
    return b"\n".join(lines)


class Checker:
    """Asks the program about texts, which lie in a folder of their own."""

    def __init__(self, room):
        self.paths = Texts(os.path.join(room, "source"), os.path.join(room, "symbols"))

    def refusal_of(self, texts):
        """Kind, line and rule of what the program refuses, or None where it accepts the source."""
        for path, data in zip(self.paths, texts):
            with open(path, "wb") as file:
                file.write(data)
        answer = programs.call("check", self.paths.source, "--symbols", self.paths.symbols)
        match = REFUSED.fullmatch(answer.text)
        if answer.status == 0:
            return None
        if not match:
            raise Refused(f"the program ended with status {answer.status}: {answer.text.strip()}")
        return match[1], int(match[2]), int(match[3])


def ways_out(texts, clauses, found, cause):
    """Texts without what is refused, with the clause that was left out, the narrowest first."""
    kind, line, rule = found
    if kind == "symbols":
        yield texts._replace(symbols=line_emptied(texts.symbols, line)), None
        return
    touched = [it for it in clauses if it.line == line] or [it for it in clauses if it.covers(line)]
    if rule == MISPLACED and cause and touched:
        # what is behind a clause that was left out stands nowhere any more: the block can't be checked
        block = [it for it in clauses if it.block == touched[0].block]
        yield texts._replace(source=blanked(texts.source, block[0].begin, block[-1].end)), block[0]
    for source, clause in sources_without(texts.source, touched, clauses, line, rule):
        yield texts._replace(source=source), clause


def sources_without(source, touched, clauses, line, rule):
    first = touched[0] if touched else None
    if rule == NO_TOKEN:
        for token in (token for clause in touched for token in clause.tokens):
            if token.line == line and token.kind == "mark" and token.text not in MARKS:
                yield blanked(source, token.begin, token.end), None
    if rule == NO_END:
        yield line_blanked(source, line), first
    if rule == ENDS_INSIDE:
        open_kind = next((it.tokens[0].upper for it in reversed(clauses) if it.is_head()), b"")
        for closer in CLOSERS:
            yield source.rstrip() + b" " + closer + b"END_" + open_kind, None
    for clause in touched:
        for shorter in clause_without(source, clause, clauses, rule):
            yield shorter, clause
    without_all = source
    for clause in touched:
        without_all = blanked(without_all, clause.begin, clause.end)
    yield without_all, first
    yield line_blanked(source, line), first


def clause_without(source, clause, clauses, rule):
    """The source without a clause, or without as much of it as has to go: of a block that has a wrong number this, of any
    other block all of it; an initial value alone; of a statement with a label all but the label."""
    if clause.is_head():
        if rule in RULES_OF_NUMBERS:
            yield renumbered(source, clause, clauses)
        own = [it for it in clauses if it.block == clause.begin]
        yield blanked(source, clause.begin, own[-1].end)
        return
    values = [token for token in clause.tokens if token.text == b":="]
    if rule == INITIAL_VALUE and values and clause.has_front():
        yield blanked(source, values[0].begin, clause.tokens[-1].begin)
    elif clause.has_front() and clause.is_in_body:
        yield replaced(source, clause.tokens[2].begin, clause.end, b"NOP 0;")
    yield blanked(source, clause.begin, clause.end)


def renumbered(source, head, clauses):
    """The source with a number for a block that no other has."""
    kind, numbers = NUMBERS[head.tokens[0].upper]
    taken = set().union(*(it.names() for it in clauses))
    free = next((number for number in numbers if b"%s%d" % (kind, number) not in taken), numbers[-1])
    return replaced(source, head.tokens[1].begin, head.tokens[block_at(head.tokens[1:])[1]].end, b"%s %d" % (kind, free))


class LeftOut:
    """What was left out so far: the lines by the names that were declared there, and by the heads of blocks that lost a
    clause against the rules of clauses."""

    def __init__(self):
        self.by_name, self.by_head = {}, {}

    def add(self, texts, clauses, found, shorter, clause):
        kind, line, rule = found
        name = symbol_name(texts.symbols, line) if kind == "symbols" else clause.declares() if clause else b""
        if name and is_left_out(clause, texts, shorter):
            self.by_name.setdefault(name, line)
        if clause and clause.is_in_block() and not clause.is_head() and rule in RULES_OF_CLAUSES:
            self.by_head.setdefault(head_line(clause, clauses), line)

    def cause_of(self, clauses, found):
        """The line in which something was left out that may be all that is wrong in the refused line, or 0."""
        kind, line, rule = found
        here = [it for it in clauses if it.covers(line)]
        if rule == MISPLACED and here:
            return self.by_head.get(head_line(here[0], clauses), 0)
        names = set().union(*(it.names() for it in here)) if rule in RULES_OF_NAMES else set()
        return min((self.by_name[name] for name in names & set(self.by_name)), default=0)


def head_line(clause, clauses):
    """The line of the head of a clause's block, or 0 outside of all."""
    return next((it.line for it in clauses if it.begin == clause.block), 0)


def refusals(texts, checker, most):
    """Yields the refusals of the texts, `most` at most."""
    left_out, found = LeftOut(), checker.refusal_of(texts)
    for _ in range(most):
        if found is None:
            return
        clauses = clauses_of(texts.source) if found[0] == "source" else []
        cause = left_out.cause_of(clauses, found)
        yield Refusal(*found, cause)
        shorter, clause, after = way_out(texts, clauses, found, cause, checker)
        left_out.add(texts, clauses, found, shorter, clause)
        texts, found = shorter, after


def way_out(texts, clauses, found, cause, checker):
    """The texts without what is refused, the clause that was left out, and what is refused then: the first way by which
    the clause there, and the next one, keep the rules of clauses, or else the first by which anything changes."""
    kind, line, _ = found
    near = range(line, next((it.line for it in clauses if it.line > line), line) + 1)
    second_best = None
    for shorter, clause in ways_out(texts, clauses, found, cause):
        after = checker.refusal_of(shorter)
        if after == found:
            continue
        if after is None or after[0] != kind or after[1] not in near or after[2] not in RULES_OF_CLAUSES:
            return shorter, clause, after
        second_best = second_best or (shorter, clause, after)
    if second_best:
        return second_best
    raise Refused(f"line {line} of the {kind}: what is refused there can't be left out, so the rest isn't checked")


def is_left_out(clause, texts, shorter):
    """Whether the name of a clause, or of a symbol, is no longer there."""
    if clause is None or clause.is_head():
        return True
    return shorter.source[clause.begin : clause.begin + 1] != texts.source[clause.begin : clause.begin + 1]


def symbol_name(symbols, line):
    """The name in a line of a symbols file, as names of clauses are written."""
    fields = next(csv.reader([decoded(symbols.split(b"\n")[line - 1])]), [""])
    return fields[0].rstrip().upper().encode()
