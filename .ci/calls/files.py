"""Files that aren't there, the longest ones, and those that are a byte longer: then the files behind them needn't be there. Words, the files of
the folder, status and text."""
from calls.cases import ONE_RUN, READ_FAULT, RUNG, told
from calls.images import EMPTY, IMAGE, LARGE

SOURCE, HISTORY, IMAGE_BYTES = 1_048_576, 4_194_304, 8_388_608

TWO = {"source": RUNG, "history": ONE_RUN}

MISSING = [
    ("go none history", TWO, *READ_FAULT),
    ("go source none", TWO, *READ_FAULT),
    ("check none", TWO, *READ_FAULT),
]


def long_two(source, history):
    """A source of blanks and a history of empty lines, of so many bytes."""
    return {"source": " " * source, "history": "\n" * history}


LONG = [
    ("go source history", long_two(SOURCE, 0), 0, "END 0 RUN\n"),
    ("go source history", long_two(SOURCE + 1, 0), 8, "too long: source\n"),
    ("go source history", long_two(0, HISTORY + 1), 8, "too long: history\n"),
    ("go source none", long_two(SOURCE + 1, 0), 8, "too long: source\n"),
    ("check source", long_two(SOURCE, 0), 0, "OK\n"),
    ("check source", long_two(SOURCE + 1, 0), 8, "too long: source\n"),
]


def long_three(source, symbols):
    """A source of blanks, symbols of empty lines, of so many bytes, and an empty history."""
    return {"source": " " * source, "symbols": "\n" * symbols, "history": ""}


# The source is read first, then the symbols, then the history; a file that is too long or can't be read ends the reading.
WITH_SYMBOLS = [
    ("go source history --symbols symbols", long_three(0, SOURCE), 0, "END 0 RUN\n"),
    ("go source history --symbols symbols", long_three(0, SOURCE + 1), 8, "too long: symbols\n"),
    ("--symbols symbols check source", long_three(0, SOURCE + 1), 8, "too long: symbols\n"),
    ("go source history --symbols symbols", long_three(SOURCE + 1, SOURCE + 1), 8, "too long: source\n"),
    ("go source none --symbols symbols", long_three(0, SOURCE + 1), 8, "too long: symbols\n"),
    ("go source history --symbols none", long_three(0, 0), *READ_FAULT),
    ("go source none --symbols symbols", long_three(0, 0), *READ_FAULT),
]

IMAGES = [
    ("run image history", {"image": "S" * IMAGE_BYTES, "history": ""}, 3, "image refused: offset 0 code 1\n"),
    ("run image history", {"image": "S" * (IMAGE_BYTES + 1), "history": ""}, 8, "too long: image\n"),
    ("upgrade image upgraded", {}, *READ_FAULT),
    ("upgrade image upgraded", {"image": "S" * (IMAGE_BYTES + 1)}, 8, "too long: image\n"),
    ("list image text names", {"image": "S" * (IMAGE_BYTES + 1)}, 8, "too long: image\n"),
]


def long_pair(image, certificate):
    """An image of so many bytes, and a certificate of so many empty lines."""
    return {"image": "S" * image, "certificate": "\n" * certificate}


CERTIFICATES = [
    ("recheck image certificate", long_pair(IMAGE_BYTES, 0), 3, "image refused: offset 0 code 1\n"),
    ("recheck image certificate", long_pair(IMAGE_BYTES + 1, 0), 8, "too long: image\n"),
    ("recheck image certificate", long_pair(4, SOURCE), 3, "image refused: offset 0 code 1\n"),
    ("recheck image certificate", long_pair(4, SOURCE + 1), 8, "too long: certificate\n"),
    # The longest certificate is read.
    ("recheck image certificate", {"image": LARGE, "certificate": "\n" * SOURCE}, 0, "OK\n"),
]

# The files come first, then the image, then the certificate.
ORDER = [
    ("bound image certificate", {"image": "nothing", "certificate": "x"}, 3, "image refused: offset 0 code 1\n"),
    ("bound image certificate", {"certificate": "x"}, *READ_FAULT),
    ("recheck image certificate", {"image": "nothing", "certificate": "x"}, 3, "image refused: offset 0 code 1\n"),
    ("recheck image certificate", {"image": "nothing"}, *READ_FAULT),
    ("recheck image certificate", {"certificate": "x"}, *READ_FAULT),
    ("recheck image certificate", {"image": IMAGE}, *READ_FAULT),
    ("recheck image certificate", {"image": IMAGE, "certificate": "x"}, 4, "certificate refused: line 1 rule 1\n"),
]

LIVE = "live image stimuli first second --steps 1"
LIVE_FILES = {"image": EMPTY, "stimuli": "", "first": "", "second": ""}

OF_LIVE = [
    (LIVE, {**LIVE_FILES, "image": "\n" * (IMAGE_BYTES + 1)}, 8, "too long: image\n"),
    (LIVE, {**LIVE_FILES, "stimuli": "\n" * (HISTORY + 1)}, 8, "too long: stimuli\n"),
    (LIVE, {**LIVE_FILES, "first": "\n" * (SOURCE + 1)}, 8, "too long: script 1\n"),
    (LIVE, {**LIVE_FILES, "second": "\n" * (SOURCE + 1)}, 8, "too long: script 2\n"),
    # The longest stimuli and scripts, of empty lines.
    (LIVE, {"image": EMPTY, "stimuli": "\n" * HISTORY, "first": "\n" * SOURCE, "second": "\n" * SOURCE}, 0, "step 1\n---\nEND 1 RUN\n"),
]

WATCH = "watch image stimuli vars first --steps 1"
WATCH_FILES = {"image": EMPTY, "stimuli": "", "vars": "read MB3\n", "first": ""}

OF_WATCH = [
    (WATCH, {**WATCH_FILES, "image": "\n" * (IMAGE_BYTES + 1)}, 8, "too long: image\n"),
    (WATCH, {**WATCH_FILES, "stimuli": "\n" * (HISTORY + 1)}, 8, "too long: stimuli\n"),
    (WATCH, {**WATCH_FILES, "vars": "\n" * (SOURCE + 1)}, 8, "too long: vars\n"),
    (WATCH, {**WATCH_FILES, "first": "\n" * (SOURCE + 1)}, 8, "too long: script 1\n"),
    # A file that isn't there, and those behind it.
    (WATCH, {}, *READ_FAULT),
    (WATCH, {"image": EMPTY}, *READ_FAULT),
    (WATCH, {"image": EMPTY, "stimuli": EMPTY}, *READ_FAULT),
    (WATCH, {"image": EMPTY, "stimuli": EMPTY, "vars": EMPTY}, *READ_FAULT),
]


def read(what, rows):
    return [told(what, words, files, status, text) for words, files, status, text in rows]


CASES = [
    *read("missing files", MISSING),
    *read("long files", LONG),
    *read("symbols that aren't read", WITH_SYMBOLS),
    *read("images that aren't read", IMAGES),
    *read("long certificates", CERTIFICATES),
    *read("files, then the image, then the certificate", ORDER),
    *read("files of live", OF_LIVE),
    *read("files of watch", OF_WATCH),
]
