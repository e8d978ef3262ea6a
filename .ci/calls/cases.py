"""What stands in the tables beside this file: files in a folder, and calls of the program that are made there.

Files and texts are given as str or as bytes. All expected values are worked out by hand, or by a machine that knows nothing of this program."""
from collections import namedtuple

# What stands in place of the bytes of a file that a call writes, where they aren't compared.
ANY = object()

# The files of a folder by their names, and the calls that are made there one behind the other; or, in place of the calls, a function that makes
# them and compares what they answer.
Case = namedtuple("Case", "what files calls")

# The words of a call, its status, what it writes to standard output, and what it leaves in the files that it writes, by their names. Nothing comes
# on standard error, and every other file stays as it was.
Call = namedtuple("Call", "words status text writes")

REFUSED = "words refused\n"
READ_FAULT = (5, "read fault\n")

# OB 1 with one rung: output 4.0 is input 0.0 and not input 0.1.
RUNG = "ORGANIZATION_BLOCK OB 1\nBEGIN\nA I 0.0;\nAN I 0.1;\n= Q 4.0;\nEND_ORGANIZATION_BLOCK\n"

# Input 0.0 comes on, then the program starts, runs once, and starts again.
ONE_RUN = "in 0 01\nstep 6\n"
ONE_RUN_TEXT = "@7 PQ 4 = 01\nEND 7 RUN\n"


class Differs(Exception):
    """An answer that isn't the one that is wanted."""


def told(what, words, files, status, text, writes=()):
    """A case of one call."""
    return Case(what, files, [Call(words, status, text, dict(writes))])


def gone(what, words, rows):
    """Calls with these words, each over the source and the history of a row, with its status and text."""
    return [told(what, words, {"source": source, "history": history}, status, text) for source, history, status, text in rows]


def run_both(what, rows):
    """Runs of a source along a history by `go`, and by `compile` and `run`."""
    return [
        Case(
            what,
            {"source": source, "history": history},
            [
                Call("go source history", 0, text, {}),
                Call("compile source image", 0, "OK\n", {"image": ANY}),
                Call("run image history", 0, text, {}),
            ],
        )
        for source, history, text in rows
    ]
