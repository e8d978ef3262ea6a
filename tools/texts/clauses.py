"""The clauses of a source, as far as one has to be left out (docs/LANGUAGE.md, "Tokens" and "Grammar").

Whether a clause is right is the program's to judge. Here it only matters where one begins and ends, also in a source that is
wrong, and in which block it stands.
"""
import re
from typing import NamedTuple

TOKEN = re.compile(
    rb"""(?P<comment>//[^\n]*)
    |(?P<title>\bTITLE\b[^\n]*)
    |(?P<quoted>"[^"\n]*")
    |(?P<characters>'[^'\n]*')
    |(?P<attribute>\{[^}]*\})
    |(?P<word>\#?[A-Z_][A-Z0-9_]*(?:\#[A-Z0-9_#+-]*)?)
    |(?P<number>[0-9][A-Z0-9_#]*)
    |(?P<mark>:=|[^\s])""",
    re.VERBOSE | re.IGNORECASE,
)
HEADS = {b"ORGANIZATION_BLOCK", b"FUNCTION", b"FUNCTION_BLOCK", b"DATA_BLOCK", b"TYPE"}
ENDS = {b"END_" + head for head in HEADS}
SECTIONS = {b"VAR", b"VAR_INPUT", b"VAR_OUTPUT", b"VAR_IN_OUT", b"VAR_TEMP"}
ALONE = ENDS | SECTIONS | {b"END_VAR", b"BEGIN", b"NETWORK", b"STRUCT", b"END_STRUCT"}
CUTTING = HEADS | ALONE - {b"STRUCT"}
HEAD_LENGTHS = {b"VERSION": 5, b"AUTHOR": 3, b"FAMILY": 3, b"NAME": 3, b"KNOW_HOW_PROTECT": 1, b"CODE_VERSION1": 1}
LONGEST_FRONT = 6
KIND = re.compile(rb"OB|FC|FB|DB|SFC|UDT")
BLOCK = re.compile(rb"(?:OB|FC|FB|DB|SFC|UDT)[0-9]+")


class Token(NamedTuple):
    kind: str
    text: bytes
    begin: int
    end: int
    line: int

    @property
    def upper(self):
        return self.text.upper()


class Clause(NamedTuple):
    """Some tokens, where the head of their block begins (-1 outside of all), and whether they stand behind its BEGIN."""

    tokens: list
    block: int
    is_in_body: bool

    @property
    def begin(self):
        return self.tokens[0].begin

    @property
    def end(self):
        return self.tokens[-1].end

    @property
    def line(self):
        return self.tokens[0].line

    def covers(self, line):
        return self.line <= line <= self.tokens[-1].line

    def is_in_block(self):
        return self.block >= 0

    def is_head(self):
        return self.tokens[0].upper in HEADS

    def has_front(self):
        """Whether a word and a colon stand at the front: a label, or the name of a variable."""
        return len(self.tokens) > 2 and self.tokens[0].kind == "word" and self.tokens[1].text == b":" and not self.is_head()

    def declares(self):
        """The block or the variable that other clauses may name because of this one, or nothing."""
        if self.is_head():
            return block_at(self.tokens[1:])[0]
        return self.tokens[0].upper if self.has_front() and not self.is_in_body else b""

    def names(self):
        """What the clause may name behind its front and, in a body, its instruction: words and blocks."""
        behind = self.tokens[2 if self.has_front() else 0 :]
        is_setting = any(token.text == b":=" for token in behind) and behind[0].upper not in (b"CALL", b"UC", b"CC")
        behind = behind[instruction_length(behind) if self.is_in_body and not is_setting else 0 :]
        words = {token.upper.lstrip(b"#").strip(b'"') for token in behind if token.kind in ("word", "quoted")}
        return words | {block_at(behind[number:])[0] for number in range(len(behind))}


def instruction_length(tokens):
    """How many tokens the instruction word has that the tokens begin with. Of the words with a bracket, `)MCR` alone has a
    second one that could be a name."""
    return 2 if [token.upper for token in tokens[:2]] == [b")", b"MCR"] else 1


def block_at(tokens):
    """The block that the tokens begin with, as OB1 or the name of a symbol, and how many tokens it has."""
    first, second = (token.upper for token in (*tokens[:2], *[Token("", b"", 0, 0, 0)] * 2)[:2])
    if KIND.fullmatch(first) and second.isdigit():
        return first + second, 2
    return (first.strip(b'"'), 1) if first[:1] == b'"' or BLOCK.fullmatch(first) else (b"", 1)


def tokens_of(source):
    """The tokens of a source without comments."""
    tokens, line, counted = [], 1, 0
    for match in TOKEN.finditer(source):
        line += source.count(b"\n", counted, match.start())
        counted = match.start()
        if match.lastgroup != "comment":
            tokens.append(Token(match.lastgroup, match.group(), match.start(), match.end(), line))
    return tokens


def clauses_of(source):
    """The clauses of a source."""
    tokens, clauses, at = tokens_of(source), [], 0
    block, block_kind, is_in_head, is_in_body = -1, b"", False, False
    while at < len(tokens):
        first = tokens[at].upper
        if first in HEADS:
            block, block_kind, is_in_head, is_in_body = tokens[at].begin, first, True, False
        elif first in ALONE:
            is_in_head = False
        length = length_of(tokens, at, block_kind if is_in_head else b"")
        clauses.append(Clause(tokens[at : at + length], block, is_in_body))
        is_in_body = is_in_body or first == b"BEGIN"
        if first in ENDS:
            block, is_in_head, is_in_body = -1, False, False
        at += length
    return clauses


def length_of(tokens, at, head_kind):
    """How many tokens the clause has that begins at `at`. In the head of a block `head_kind` is the word that begins it."""
    front = tokens[at : at + LONGEST_FRONT]
    first = front[0].upper

    def with_mark(length, mark):
        return length + (len(front) > length and front[length].text == mark)

    if front[0].kind in ("attribute", "title"):
        return 1
    if first in HEADS:
        length = 1 + block_at(front[1:])[1]
        return length if with_mark(length, b":") == length else length + 2
    if first in ALONE:
        return with_mark(1, b";") if first == b"END_STRUCT" else 1
    if head_kind and first in HEAD_LENGTHS:
        return with_mark(HEAD_LENGTHS[first], b";")
    if head_kind == b"DATA_BLOCK" and block_at(front)[0]:
        return block_at(front)[1]
    # a clause goes on over keywords, where its end is missing; then it's cut in front of the first one
    for end in range(at, len(tokens)):
        if tokens[end].text == b";" or tokens[end].upper == b"STRUCT":
            return end + 1 - at
        if end > at and tokens[end].upper in CUTTING:
            return end - at
    return len(tokens) - at
