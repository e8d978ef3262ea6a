"""Images as files: the bytes that `compile` and `upgrade` write, and what `run` answers of images, altered ones among them."""
from calls.cases import ANY, Call, Case, told

# A data block of two words; a jump, and a transfer to its second word.
SOURCE = "DATA_BLOCK DB 10 STRUCT a : INT; b : INT; END_STRUCT; BEGIN END_DATA_BLOCK\nORGANIZATION_BLOCK OB 1 BEGIN\nJU x;\nx: T DB10.DBW 2;\nEND_ORGANIZATION_BLOCK\n"

# Its image of version 1: the one of docs/FORMATS.md but for version and profile.
IMAGE = bytes([
    # The header: version 1, 80 bytes, a code block, a data block, no names.
    0x53, 0x37, 0x46, 0x42, 0, 1, 0, 0, 0, 0, 0, 0x50, 0, 1, 0, 1, 0, 0, 0, 0,
    # OB 1: no parameters, 20 local bytes, 3 statements, 20 bytes of code.
    1, 0, 0, 1, 0, 0x14, 0, 0, 0, 3, 0, 0, 0, 0, 0, 0x14,
    # JU to 7; USEDB 10 and T DBW 2; BE.
    0xEF, 8, 0, 0, 0, 0, 7, 2, 0x0A, 0, 0x0A, 0xA1, 2, 0x84, 3, 0, 2, 0, 0xFB, 0,
    # The lines of the statements.
    0, 0, 0, 3, 0, 0, 0, 4, 0, 0, 0, 5,
    # DB 10: no instance, 4 bytes.
    0, 0x0A, 0, 0, 0, 4, 0, 0, 0, 0, 0, 0,
])

# A function that calls itself without end, of version 1.
CHAIN = bytes([
    # The header: 86 bytes, two code blocks, no data block, no names.
    0x53, 0x37, 0x46, 0x42, 0, 1, 0, 0, 0, 0, 0, 0x56, 0, 2, 0, 0, 0, 0, 0, 0,
    # OB 1: no parameters, 20 local bytes, 2 statements, 9 bytes of code.
    1, 0, 0, 1, 0, 0x14, 0, 0, 0, 2, 0, 0, 0, 0, 0, 9,
    # CALL FC 1; BE. The lines of the statements.
    0xF8, 0x0D, 2, 0, 1, 0, 0, 0xFB, 0, 0, 0, 0, 7, 0, 0, 0, 8,
    # FC 1: no parameters, no local bytes, 2 statements, 9 bytes of code.
    2, 0, 0, 1, 0, 0, 0, 0, 0, 2, 0, 0, 0, 0, 0, 9,
    # CALL FC 1; BE. The lines of the statements.
    0xF8, 0x0D, 2, 0, 1, 0, 0, 0xFB, 0, 0, 0, 0, 3, 0, 0, 0, 4,
])

# OB 1 with a zone of the master control relay, of version 1.
RELAY = bytes([
    # The header: 105 bytes, a code block, no data block, no names.
    0x53, 0x37, 0x46, 0x42, 0, 1, 0, 0, 0, 0, 0, 0x69, 0, 1, 0, 0, 0, 0, 0, 0,
    # OB 1: no parameters, 20 local bytes, 9 statements, 33 bytes of code.
    1, 0, 0, 1, 0, 0x14, 0, 0, 0, 9, 0, 0, 0, 0, 0, 0x21,
    # MCRA; A I 0.0; MCR(; SET.
    0x85, 0, 0x90, 2, 0x81, 1, 0, 0, 0, 0x87, 0, 0xA7, 0,
    # = Q 4.0; S Q 4.1.
    0xA2, 2, 0x82, 1, 0, 4, 0, 0xA3, 2, 0x82, 1, 0, 4, 1,
    # )MCR; MCRD; BE.
    0x88, 0, 0x86, 0, 0xFB, 0,
    # The lines of the statements, 3 to 11.
    0, 0, 0, 3, 0, 0, 0, 4, 0, 0, 0, 5, 0, 0, 0, 6, 0, 0, 0, 7, 0, 0, 0, 8, 0, 0, 0, 9, 0, 0, 0,
    10, 0, 0, 0, 11,
])

# An image of no blocks and one name, of version 1.
NAMED = bytes([
    # The header: 30 bytes, no blocks, a name.
    0x53, 0x37, 0x46, 0x42, 0, 1, 0, 0, 0, 0, 0, 0x1E, 0, 0, 0, 0, 0, 1, 0, 0,
    # LAMP, Q 4.0.
    4, 0x4C, 0x41, 0x4D, 0x50, 0x82, 1, 0, 4, 0,
])

# The image of the empty source, of version 1, and of version 2 for the large profile.
EMPTY = b"S7FB\x00\x01\x00\x00\x00\x00\x00\x14\x00\x00\x00\x00\x00\x00\x00\x00"
LARGE = b"S7FB\x00\x02\x00\x02\x00\x00\x00\x14\x00\x00\x00\x00\x00\x00\x00\x00"

# A cycle: its point, the jump, the transfer, the end; and what a run of it writes.
CYCLE = "step 4\n"
CYCLE_TEXT = "END 4 RUN\nDB 10 0 00000000\n"


def altered(image, place, value):
    """An image with another byte at a place."""
    return image[:place] + bytes([value]) + image[place + 1 :]


def stamped(image, version, profile):
    """An image of version 1 with this version and profile in place of its own."""
    return altered(altered(image, 5, version), 7, profile)


# Each compiled image is of version 2, for the large profile.
WRITTEN = [
    told("an image is written", "compile source image", {"source": SOURCE}, 0, "OK\n", {"image": stamped(IMAGE, 2, 2)}),
    # The image is in the place of its source.
    told("a source is compiled over itself", "compile source source", {"source": SOURCE}, 0, "OK\n", {"source": stamped(IMAGE, 2, 2)}),
    # A refused source leaves the image of another one.
    told("a refused source", "compile source image", {"source": "L 1;\n", "image": IMAGE}, 2, "source refused: line 1 rule 11\n"),
    told("the image of nothing", "compile source image", {"source": ""}, 0, "OK\n", {"image": LARGE}),
]

# The version, the number in the profile's place, the status of `run`, and its text: of another version the number isn't checked.
STAMPS = [
    (1, 0, 0, CYCLE_TEXT),
    (2, 1, 0, CYCLE_TEXT),
    (2, 2, 0, CYCLE_TEXT),
    (1, 1, 3, "image refused: offset 6 code 4\n"),
    (2, 0, 3, "image refused: offset 6 code 4\n"),
    (2, 3, 3, "image refused: offset 6 code 4\n"),
    (0, 0, 3, "image refused: offset 4 code 2\n"),
    (3, 0, 3, "image refused: offset 4 code 2\n"),
    (3, 3, 3, "image refused: offset 4 code 2\n"),
]

# Sizes by version and profile, and a zone that is closed and open: an image of version 1, another version and profile, a history, and the text of
# the run.
SIZES = [
    # The seventeenth block of the chain, or the twenty-fifth.
    (CHAIN, 1, 0, "step 25\n", "@17 MODE STOP 6 AT FC 1 LINE 3\nEND 25 STOP 6\n"),
    (CHAIN, 2, 1, "step 17\n", "@17 MODE STOP 6 AT FC 1 LINE 3\nEND 17 STOP 6\n"),
    (CHAIN, 2, 2, "step 25\n", "@25 MODE STOP 6 AT FC 1 LINE 3\nEND 25 STOP 6\n"),
    (CHAIN, 2, 2, "step 24\n", "END 24 RUN\n"),
    # The end of bit memory.
    (EMPTY, 1, 0, "op 1 read MB 255, MB 256\nop 1 read MB255\n", "@1 OP 1 NOSUCH 2\n@2 OP 1 VALUES 00\nEND 2 RUN\n"),
    (EMPTY, 2, 1, "op 1 read MB 300\n", "@1 OP 1 NOSUCH 1\nEND 1 RUN\n"),
    (EMPTY, 2, 2, "op 1 read MB 300\nop 1 read MB 2047, MB 2048\n", "@1 OP 1 VALUES 00\n@2 OP 1 NOSUCH 2\nEND 2 RUN\n"),
    # With input 0.0 the zone is open, and without it closed: nothing is set, and 0 assigned.
    (RELAY, 1, 0, "step 11\n", "END 11 RUN\n"),
    (RELAY, 1, 0, "in 0 01\nstep 11\n", "@12 PQ 4 = 03\nEND 12 RUN\n"),
    (RELAY, 2, 2, "in 0 01\nstep 11\nin 0 00\nstep 20\n", "@12 PQ 4 = 03\n@33 PQ 4 = 02\nEND 33 RUN\n"),
]

# No byte of a header field, no magic: the length of the file comes first. How many bytes are left.
CUT = [
    (0, "image refused: offset 0 code 3\n"),
    (1, "image refused: offset 0 code 3\n"),
    (79, "image refused: offset 8 code 3\n"),
]

# One byte of the image is another one: its place, its value, and the least fault.
ALTERED = [
    # the magic, the version, the total length
    (0, 0x54, "image refused: offset 0 code 1\n"),
    (5, 0x03, "image refused: offset 4 code 2\n"),
    (11, 0x51, "image refused: offset 8 code 3\n"),
    # a block of kind 4, a reserved field
    (20, 0x04, "image refused: offset 20 code 4\n"),
    (30, 0x01, "image refused: offset 30 code 4\n"),
    # a form that JU doesn't take; a target that isn't the first op of a statement; a bit of a word
    (37, 0x07, "image refused: offset 36 code 5\n"),
    (42, 0x0B, "image refused: offset 36 code 6\n"),
    (53, 0x01, "image refused: offset 47 code 7\n"),
    # four statements, a line 0 behind line 4
    (29, 0x04, "image refused: offset 28 code 9\n"),
    (67, 0x00, "image refused: offset 64 code 9\n"),
]

# MCRA in place of `MCR(`, so that `)MCR` finds no zone; MCRD in place of `)MCR`, so that the zone is open at the end.
ZONES = [
    (45, 0x85, "image refused: offset 63 code 8\n"),
    (63, 0x86, "image refused: offset 45 code 8\n"),
]

# The image comes first, then the history. Image, history, status, text.
IN_ORDER = [
    ("", "tick 0\n", 3, "image refused: offset 0 code 3\n"),
    (IMAGE, "tick 0\n", 4, "history refused: line 1 rule 2\n"),
    (IMAGE, "op 1 read \"Start\"\n", 4, "history refused: line 1 rule 3\n"),
]

# A history of an image knows the names of the symbols that it was compiled with.
NAMES = Case(
    "names of an image",
    {"source": "", "symbols": "Lamp,Q 4.0,BOOL,\n", "history": "op 1 write \"lamp\" 1\nop 1 read QB4\n"},
    [
        Call("compile --symbols symbols source image", 0, "OK\n", {"image": ANY}),
        Call("run image history", 0, "@1 OP 1 DONE\n@2 OP 1 VALUES 01\nEND 2 RUN\n", {}),
    ],
)

# Version and profile of an image, and those of the upgraded one, of which bytes 5 and 7 change alone: the profile stays, which version 1 has as
# Small.
UPGRADES = [((1, 0), (2, 1)), ((2, 1), (2, 1)), ((2, 2), (2, 2))]

# An image that is refused, with this version and number in the profile's place, and the line of that.
REFUSED = [
    (2, 3, "image refused: offset 6 code 4\n"),
    (2, 0, "image refused: offset 6 code 4\n"),
    (1, 2, "image refused: offset 6 code 4\n"),
    (3, 1, "image refused: offset 4 code 2\n"),
]


def run(what, image, history, status, text):
    return told(what, "run image history", {"image": image, "history": history}, status, text)


CASES = [
    *WRITTEN,
    run("an image is run", IMAGE, CYCLE, 0, CYCLE_TEXT),
    *[run("versions and profiles", stamped(IMAGE, version, profile), CYCLE, status, text) for version, profile, status, text in STAMPS],
    *[run("sizes and zones", stamped(image, version, profile), history, 0, text) for image, version, profile, history, text in SIZES],
    *[run("cut images", IMAGE[:length], CYCLE, 3, text) for length, text in CUT],
    *[run("altered images", altered(IMAGE, place, value), CYCLE, 3, text) for place, value, text in ALTERED],
    *[run("zones that don't match", altered(RELAY, place, value), CYCLE, 3, text) for place, value, text in ZONES],
    # A data block of number 0, and a byte behind the last record.
    run("a data block of number 0", altered(IMAGE, 69, 0), CYCLE, 3, "image refused: offset 68 code 4\n"),
    run("a byte too many", IMAGE + b"\0", CYCLE, 3, "image refused: offset 80 code 10\n"),
    *[run("the image, then the history", image, history, status, text) for image, history, status, text in IN_ORDER],
    NAMES,
    *[
        told("upgraded bytes", "upgrade image upgraded", {"image": stamped(image, *before), "upgraded": "x"}, 0, "OK\n", {"upgraded": stamped(image, *after)})
        for image in (IMAGE, NAMED)
        for before, after in UPGRADES
    ],
    # The upgraded image is in the place of the other, and runs as that did.
    Case(
        "an image upgraded over itself",
        {"image": IMAGE, "history": CYCLE},
        [Call("upgrade image image", 0, "OK\n", {"image": stamped(IMAGE, 2, 1)}), Call("run image history", 0, CYCLE_TEXT, {})],
    ),
    *[
        told("refused images", "upgrade image upgraded", {"image": stamped(IMAGE, version, profile), "upgraded": "x"}, 3, text)
        for version, profile, text in REFUSED
    ],
]
