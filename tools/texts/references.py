"""Where a source names which operand, and whether it reads or writes it there.

The source is taken to be right: what a clause means beyond that is the program's to judge."""
import re
from typing import NamedTuple

from texts.clauses import block_at, clauses_of
from texts.symbols import folded
from texts.tool import decoded, on_one_line

PLACE = re.compile(r"(P?[IQ]|M)([BWD]?)([0-9]+)(?:\.([0-7]))?", re.IGNORECASE)
NUMBERED = re.compile(r"(T|C|OB|FB|FC|SFC|DB|DI|UDT)([0-9]+)", re.IGNORECASE)
IN_OPEN_BLOCK = re.compile(r"(D[BI][XBWD])([0-9]+)(\.[0-7])?", re.IGNORECASE)
COMPONENT = re.compile(r"(DB)([0-9]+)(\.[^0-9].*)", re.IGNORECASE)
POINTED = re.compile(r"([A-Z]{0,3})\[(?:(M|L|DB|DI)([WD])([0-9]+)|(AR[12]),(P#[0-9.]+))\]", re.IGNORECASE)
COULD_HAVE_SYMBOL = re.compile(r"(P?[IQ][BWD]?|M[BWD]?|T|C|FB|FC|DB) [0-9]+(\.[0-7])?")
AREAS = "I PI Q PQ M T C DB FB FC SFC OB UDT".split()
ACCESSES = {
    "read": "A AN O ON X XN L LC LAR1 LAR2",
    "written": "T = S R TAR1 TAR2 SP SE SD SS SF FR CU CD",
    "read and written": "FP FN",
    "opened": "OPN",
    "called": "CALL UC CC",
}
ACCESS_BY_WORD = {word: access for access, words in ACCESSES.items() for word in words.split()}


class Reference(NamedTuple):
    """An operand as it is shown, the block and the line that name it, and what is done with it there."""

    operand: str
    block: str
    line: int
    access: str


class References(NamedTuple):
    """All references in the order of the source; the operands that have no symbol and could have one; the symbols that nothing
    uses, each with its address."""

    list: list
    without_symbol: list
    unused: list


class Names:
    """The symbols by address and by name. An address is written as `M 0.1`, `MW 2`, `T 5` or `DB 10`."""

    def __init__(self, records):
        self.symbols = [(name, plain_operand(address) or address.strip()) for name, address, _ in records]
        self.by_name = {folded(name): address for name, address in self.symbols}
        self.by_address = {address: name for name, address in self.symbols}

    def shown(self, address):
        name = self.by_address.get(address)
        return f'{address} "{on_one_line(name)}"' if name else address

    def operand_of(self, tokens):
        """The operand that the tokens spell, as it is shown, or nothing where it is local or a constant."""
        text = "".join(decoded(token.text) for token in tokens)
        if tokens and tokens[0].kind == "quoted":
            name, path = decoded(tokens[0].text)[1:-1], text[len(decoded(tokens[0].text)) :]
            address = self.by_name.get(folded(name))
            shown = self.shown(address) if address else f'"{on_one_line(name)}"'
            return f"{address or shown}{plain_path(path)}" if path else shown
        address = plain_operand(text)
        return self.shown(address) if address else ""


def plain_path(path):
    """What stands behind the name of a data block, as `.Step` or `.DBW 2`."""
    in_block = IN_OPEN_BLOCK.fullmatch(path[1:])
    return f".{in_block[1].upper()} {int(in_block[2])}{in_block[3] or ''}" if in_block else path


def plain_operand(text):
    """An operand in one way of writing, or nothing where the text is none that this tool tells."""
    text = re.sub(r"\s", "", text)
    place, numbered, in_open_block, component, pointed = (form.fullmatch(text) for form in (PLACE, NUMBERED, IN_OPEN_BLOCK, COMPONENT, POINTED))
    if place:
        return f"{place[1]}{place[2]} {int(place[3])}".upper() + (f".{place[4]}" if place[4] else "")
    if numbered:
        return f"{numbered[1].upper().replace('DI', 'DB')} {int(numbered[2])}"
    if in_open_block:
        return plain_path("." + text)[1:]
    if component:
        return f"DB {int(component[2])}{plain_path(component[3])}"
    if pointed:
        pointer = f"{pointed[2]}{pointed[3]} {int(pointed[4])}" if pointed[2] else f"{pointed[5]}, {pointed[6]}"
        return f"{pointed[1]} [{pointer}]".strip().upper()
    return ""


def pointer_of(text):
    """The place of the pointer that an operand is found by, or nothing."""
    pointed = POINTED.search(re.sub(r"\s", "", text))
    return plain_operand("".join(pointed.group(2, 3, 4))) if pointed and pointed[2] else ""


def operands_of(clause):
    """Each operand of a statement, by its tokens, and what is done with it."""
    tokens = [token for token in clause.tokens if token.text != b";"]
    tokens = tokens[2:] if clause.has_front() and len(tokens) > 1 and tokens[1].text == b":" else tokens
    if not tokens:
        return
    word = decoded(tokens[0].text).upper()
    access = ACCESS_BY_WORD.get(word)
    if access == "called":
        yield from operands_of_call(tokens[1:])
    elif access and len(tokens) > 1 and tokens[1].text != b"(":
        yield tokens[1:], access


def operands_of_call(tokens):
    """The block that is called, the data block that goes with it, and what is passed."""
    open_at = next((at for at, token in enumerate(tokens) if token.text == b"("), len(tokens))
    for number, part in enumerate(parted(tokens[:open_at])):
        yield part, "its instance" if number else "called"
    for part in parted(tokens[open_at + 1 : -1]):
        is_named = len(part) > 2 and part[1].text == b":="
        if is_named:
            yield part[2:], "passed"


def parted(tokens):
    """The tokens between commas outside of brackets."""
    parts, depth = [[]], 0
    for token in tokens:
        depth += (token.text in (b"[", b"(")) - (token.text in (b"]", b")"))
        if token.text == b"," and depth == 0:
            parts.append([])
        else:
            parts[-1].append(token)
    return [part for part in parts if part]


def named_outside(clause):
    """Each block that a clause outside of a body names: the one that begins there, an instance's, a type."""
    for at, token in enumerate(clause.tokens):
        name, length = block_at(clause.tokens[at:])
        if name and token.kind in ("word", "quoted"):
            yield clause.tokens[at : at + length], "begins here" if clause.is_head() else "declared"


def references_of(source, records):
    """The references of a source, with symbols as records of name, address and type."""
    names, found, block = Names(records), [], ""
    for clause in clauses_of(source):
        if clause.is_head():
            block = names.operand_of(clause.tokens[1 : 1 + block_at(clause.tokens[1:])[1]])
        operands = operands_of(clause) if clause.is_in_body and clause.is_in_block() else named_outside(clause)
        for tokens, access in operands:
            operand = names.operand_of(tokens)
            found += [Reference(operand, block, tokens[0].line, access)] if operand else []
            pointer = pointer_of("".join(decoded(token.text) for token in tokens))
            found += [Reference(names.shown(pointer), block, tokens[0].line, "read")] if pointer else []
    used = {re.split(r' "|\.(?=[^0-9])', it.operand)[0] for it in found}
    bare = {it.operand for it in found if COULD_HAVE_SYMBOL.fullmatch(it.operand)}
    unused = [(name, address) for name, address in names.symbols if address not in used]
    return References(found, sorted(bare, key=order), unused)


def order(operand):
    """The order of operands: by area, and by number; what pointers lead to, and what has no address, comes last."""
    match = re.match(r"([A-Z]+) ([0-9]+)", operand)
    letters = match[1] if match else ""
    area = letters if letters in AREAS else letters.rstrip("BWD")
    numbers = [int(it) for it in re.findall(r"[0-9]+", operand.partition('"')[0])]
    return (AREAS.index(area) if area in AREAS else len(AREAS), numbers, operand.lower())


def lines_of_references(references):
    """What a person reads: what has no symbol, what isn't used, and each operand with where it is named."""
    for heading, operands in (
        ("addresses without a symbol", references.without_symbol),
        ("symbols never used", [f'"{on_one_line(name)}" {address}' for name, address in references.unused]),
    ):
        yield f"{heading}: {len(operands) or 'none'}"
        yield from (f"  {operand}" for operand in operands)
    by_operand = {}
    for it in references.list:
        by_operand.setdefault(folded(it.operand), []).append(it)
    for found in sorted(by_operand.values(), key=lambda it: order(it[0].operand)):
        yield found[0].operand
        yield from (f"  line {it.line}, {it.block}: {it.access}" for it in found)
