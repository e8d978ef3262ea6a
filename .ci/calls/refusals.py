"""What `check` answers: sources that are accepted, and the first rule that others break."""
from calls.cases import RUNG, gone

# The rules of tokens come first, then those of clauses, of each the first place in the text; then those of blocks and statements together, the
# least line and rule.
CHECKS = [
    (RUNG, "", 0, "OK\n"),
    ("", "", 0, "OK\n"),
    ("// nothing\n", "", 0, "OK\n"),
    # 2H46M31S is 9,991,000 ms, one second too much.
    ("ORGANIZATION_BLOCK OB 1\nBEGIN\nL S5T#2H46M31S;\nEND_ORGANIZATION_BLOCK", "", 2, "source refused: line 3 rule 4\n"),
    ("L 1;\n\nA I 0.0 $;\n", "", 2, "source refused: line 3 rule 1\n"),
    ("A \"Motor\n", "", 2, "source refused: line 1 rule 2\n"),
    ("\nL T#5;\n", "", 2, "source refused: line 2 rule 3\n"),
    # There is no bit 8.
    ("ORGANIZATION_BLOCK OB 1\nBEGIN\nL 1;\nL M 0.8;\nEND_ORGANIZATION_BLOCK\n", "", 2, "source refused: line 4 rule 10\n"),
    ("\n\nSET;\n", "", 2, "source refused: line 3 rule 11\n"),
    ("ORGANIZATION_BLOCK OB 1\nBEGIN\nabcde: SET;\nEND_ORGANIZATION_BLOCK\n", "", 2, "source refused: line 3 rule 12\n"),
    # The line of the last token, and not of the comment.
    ("ORGANIZATION_BLOCK OB 1\nBEGIN\n// and no end\n", "", 2, "source refused: line 2 rule 13\n"),
    # The eighth bracket; a jump out of brackets; a second OB 1; a rule of statements that comes
    # before one of blocks.
    (
        "ORGANIZATION_BLOCK OB 1\nBEGIN\nA(;\nA(;\nA(;\nA(;\nA(;\nA(;\nA(;\nA(;\nA I 0.0;\n);\n);\n);\n);\n);\n);\n);\n);\n= Q 4.0;\nEND_ORGANIZATION_BLOCK\n",
        "",
        2,
        "source refused: line 10 rule 31\n",
    ),
    ("ORGANIZATION_BLOCK OB 1\nBEGIN\nA(;\nJU x;\n);\nx: NOP 0;\nEND_ORGANIZATION_BLOCK\n", "", 2, "source refused: line 4 rule 33\n"),
    (
        "ORGANIZATION_BLOCK OB 1\nBEGIN\nEND_ORGANIZATION_BLOCK\nORGANIZATION_BLOCK OB 1\nBEGIN\nEND_ORGANIZATION_BLOCK\n",
        "",
        2,
        "source refused: line 4 rule 22\n",
    ),
    (
        "ORGANIZATION_BLOCK OB 1\nBEGIN\nL M 0.0;\nEND_ORGANIZATION_BLOCK\nORGANIZATION_BLOCK OB 1\nBEGIN\nEND_ORGANIZATION_BLOCK\n",
        "",
        2,
        "source refused: line 3 rule 24\n",
    ),
    # The lesser rule of one line, be it of blocks or of statements.
    ("ORGANIZATION_BLOCK OB 1\nBEGIN\nOPN DB 9; L M 0.0;\nEND_ORGANIZATION_BLOCK\n", "", 2, "source refused: line 3 rule 23\n"),
    ("ORGANIZATION_BLOCK OB 1\nBEGIN\nOPN DB 9; A \"nix\";\nEND_ORGANIZATION_BLOCK\n", "", 2, "source refused: line 3 rule 20\n"),
    # A place beyond the memory is met only when it runs.
    ("ORGANIZATION_BLOCK OB 40\nBEGIN\nA M 2047.7;\nA M 2048.0;\nEND_ORGANIZATION_BLOCK\n", "", 0, "OK\n"),
]

# Zones of the master control relay.
ZONES = [
    # A zone that ends without having been opened; a bracket is none.
    ("ORGANIZATION_BLOCK OB 1\nBEGIN\n)MCR;\nEND_ORGANIZATION_BLOCK\n", "", 2, "source refused: line 3 rule 47\n"),
    ("ORGANIZATION_BLOCK OB 1\nBEGIN\nA(;\n)MCR;\n);\nEND_ORGANIZATION_BLOCK\n", "", 2, "source refused: line 4 rule 47\n"),
    # A zone that is left open, told at its beginning.
    ("ORGANIZATION_BLOCK OB 1\nBEGIN\nMCR(;\nMCR(;\nSET;\n)MCR;\nEND_ORGANIZATION_BLOCK\n", "", 2, "source refused: line 3 rule 48\n"),
    # Eight zones fit, nine don't.
    (
        "ORGANIZATION_BLOCK OB 1\nBEGIN\nMCR(;\nMCR(;\nMCR(;\nMCR(;\nMCR(;\nMCR(;\nMCR(;\nMCR(;\n)MCR;\n)MCR;\n)MCR;\n)MCR;\n)MCR;\n)MCR;\n)MCR;\n)MCR;\nEND_ORGANIZATION_BLOCK\n",
        "",
        0,
        "OK\n",
    ),
    (
        "ORGANIZATION_BLOCK OB 1\nBEGIN\nMCR(;\nMCR(;\nMCR(;\nMCR(;\nMCR(;\nMCR(;\nMCR(;\nMCR(;\nMCR(;\n)MCR;\n)MCR;\n)MCR;\n)MCR;\n)MCR;\n)MCR;\n)MCR;\n)MCR;\n)MCR;\nEND_ORGANIZATION_BLOCK\n",
        "",
        2,
        "source refused: line 11 rule 49\n",
    ),
    # Seven brackets and eight zones are counted apart.
    (
        "ORGANIZATION_BLOCK OB 1\nBEGIN\nMCR(;\nMCR(;\nMCR(;\nMCR(;\nMCR(;\nMCR(;\nMCR(;\nMCR(;\nA(;\nA(;\nA(;\nA(;\nA(;\nA(;\nA(;\nSET;\n);\n);\n);\n);\n);\n);\n);\n)MCR;\n)MCR;\n)MCR;\n)MCR;\n)MCR;\n)MCR;\n)MCR;\n)MCR;\nEND_ORGANIZATION_BLOCK\n",
        "",
        0,
        "OK\n",
    ),
    # A jump into a zone, told at the jump; one to a place with as many zones is none.
    ("ORGANIZATION_BLOCK OB 1\nBEGIN\nJU in;\nMCR(;\nin: SET;\n)MCR;\nEND_ORGANIZATION_BLOCK\n", "", 2, "source refused: line 3 rule 33\n"),
    ("ORGANIZATION_BLOCK OB 1\nBEGIN\nMCR(;\nJU next;\n)MCR;\nMCR(;\nnext: SET;\n)MCR;\nEND_ORGANIZATION_BLOCK\n", "", 0, "OK\n"),
    # `MCR` alone is no instruction.
    ("ORGANIZATION_BLOCK OB 1\nBEGIN\nMCR;\nEND_ORGANIZATION_BLOCK\n", "", 2, "source refused: line 3 rule 10\n"),
]


def numbered(piece, behind, count):
    """A piece so often, with its number, from 1."""
    return "".join(f"{piece}{number}{behind}" for number in range(1, count + 1))


def nested(count):
    """So many structures, one in the other, in that of a data block. Each begins in a line of its own; the ends stand behind."""
    return "DATA_BLOCK DB 1\nSTRUCT\n" + "a : STRUCT\n" * count + "b : BOOL;\n" + " ".join(["END_STRUCT;"] * count) + "\nEND_STRUCT;\nBEGIN\nEND_DATA_BLOCK\n"


def with_parameters(count):
    """A function of so many parameters."""
    return "\nFUNCTION FC 1 : VOID\nVAR_INPUT\n" + numbered("p", " : INT;\n", count) + "END_VAR\nBEGIN\nEND_FUNCTION\n"


# Sources at the limits of the language and past them.
LIMITS = [
    (nested(7), "", 0, "OK\n"),
    # The ninth structure, in line 10.
    (nested(8), "", 2, "source refused: line 10 rule 56\n"),
    # 60 parameters, and 61, which the head of the function tells.
    (with_parameters(60), "", 0, "OK\n"),
    (with_parameters(61), "", 2, "source refused: line 2 rule 52\n"),
    # A data block of 8,192 words has 16,384 bytes, one of 8,193 has two more.
    ("DATA_BLOCK DB 1 STRUCT a : ARRAY [1 .. 8192] OF INT; END_STRUCT; BEGIN END_DATA_BLOCK\n", "", 0, "OK\n"),
    ("\nDATA_BLOCK DB 1 STRUCT a : ARRAY [1 .. 8193] OF INT; END_STRUCT; BEGIN END_DATA_BLOCK\n", "", 2, "source refused: line 2 rule 51\n"),
    # 256 data blocks, a line each, and the one more.
    (numbered("DATA_BLOCK DB ", " STRUCT a : BOOL; END_STRUCT; BEGIN END_DATA_BLOCK\n", 256), "", 0, "OK\n"),
    (numbered("DATA_BLOCK DB ", " STRUCT a : BOOL; END_STRUCT; BEGIN END_DATA_BLOCK\n", 257), "", 2, "source refused: line 257 rule 53\n"),
    # A source that ends inside a block: the line of its last token.
    ("ORGANIZATION_BLOCK OB 1\nBEGIN\n" + "NOP 0;\n" * 3, "", 2, "source refused: line 5 rule 13\n"),
]

# Bytes that no source may hold, outside of a comment and in one; a name without an end.
BYTES = [
    (b"\n\xC8\n", "", 2, "source refused: line 2 rule 1\n"),
    (b"// \xC8\n", "", 0, "OK\n"),
    ("\n\nA \"Motor;\n", "", 2, "source refused: line 3 rule 2\n"),
]

CASES = [
    *gone("checks", "check source", CHECKS),
    *gone("zones", "check source", ZONES),
    *gone("limits", "check source", LIMITS),
    *gone("bytes and names", "check source", BYTES),
]
