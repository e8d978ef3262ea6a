"""`live` and `watch`: their statuses by their files, and runs whose workers come in an order of their own, of which the printed history tells all."""
from calls.cases import ANY, Call, Case, Differs, told
from calls.files import LIVE, LIVE_FILES, WATCH, WATCH_FILES
from calls.images import EMPTY, LARGE

# One step of a stepper, and nothing else.
STEP_TEXT = "step 1\n---\nEND 1 RUN\n"

# Image, stimuli, first script, second script, the status, and the text. The image is checked first, then the stimuli, then the scripts in their order.
LIVE_STATUSES = [
    (EMPTY, "", "", "", 0, STEP_TEXT),
    # a file without a magic
    ("", "step\n", "x\n", "x\n", 3, "image refused: offset 0 code 3\n"),
    ("SSSSSSSSSSSSSSSSSSSS", "step\n", "x\n", "x\n", 3, "image refused: offset 0 code 1\n"),
    # a step is none of the feeder's entries
    (EMPTY, "in 0 01\nstep 1\n", "x\n", "x\n", 4, "stimuli refused: line 2 rule 4\n"),
    (EMPTY, "tick 0\n", "x\n", "x\n", 4, "stimuli refused: line 1 rule 2\n"),
    (EMPTY, "", "diag\n\nx\n", "x\n", 4, "script 1 refused: line 3 rule 1\n"),
    (EMPTY, "", "diag\n", "diag\nx\n", 4, "script 2 refused: line 2 rule 1\n"),
    # the image has no names
    (EMPTY, "", "", "read \"Motor\"\n", 4, "script 2 refused: line 1 rule 3\n"),
    (EMPTY, "", "in 0 01\n", "", 4, "script 1 refused: line 1 rule 4\n"),
]

# An image in which OB 1 loads peripheral byte 200, which isn't there; it has no OB 122. A step that leaves STOP is the last one: the second, behind
# the start of OB 1.
STOPPING = b"S7FB\x00\x02\x00\x02\x00\x00\x00\x35\x00\x01\x00\x00\x00\x00\x00\x00\x01\x00\x00\x01\x00\x14\x00\x00\x00\x02\x00\x00\x00\x00\x00\x09\xA0\x02\x80\x02\x00\xC8\x00\xFB\x00\x00\x00\x00\x03\x00\x00\x00\x04"
STOPPED = told(
    "a stop ends the steps",
    "live image stimuli first second --steps 9",
    {**LIVE_FILES, "image": STOPPING},
    0,
    "step 2\n---\n@2 MODE STOP 4 AT OB 1 LINE 3\nEND 2 STOP 4\n",
)

# Image, stimuli, variables, script, the status, and the text. The image is checked first, then the stimuli, the variables, and the script.
WATCH_STATUSES = [
    # a file without a magic
    ("", "step\n", "x\n", "x\n", 3, "image refused: offset 0 code 3\n"),
    (EMPTY, "in 0 01\nstep 1\n", "x\n", "x\n", 4, "stimuli refused: line 2 rule 4\n"),
    (EMPTY, "", "x\n", "x\n", 4, "vars refused: line 1 rule 1\n"),
    (EMPTY, "", "", "x\n", 4, "vars refused: line 1 rule 7\n"),
    (EMPTY, "", "read MB3\n", "diag\n\nx\n", 4, "script 1 refused: line 3 rule 1\n"),
    # the image has no names
    (EMPTY, "", "read MB3\n", "read \"Motor\"\n", 4, "script 1 refused: line 1 rule 3\n"),
]

# What the variables' file holds, and what is written: it has one line, a `read`. Of several lines the first wrong one is told.
VARS = [
    ("", "vars refused: line 1 rule 7\n"),
    ("\n// nothing\n", "vars refused: line 1 rule 7\n"),
    ("write MB3 AA", "vars refused: line 1 rule 7\n"),
    ("// this\n\nwrite MB3 AA\n", "vars refused: line 3 rule 7\n"),
    ("diag\n", "vars refused: line 1 rule 7\n"),
    ("stop\n", "vars refused: line 1 rule 7\n"),
    ("read MB3\n\nread MB3\n", "vars refused: line 3 rule 7\n"),
    ("read MB3\ndiag\n", "vars refused: line 2 rule 7\n"),
    ("read MB3\nx\n", "vars refused: line 2 rule 1\n"),
    ("write MB3 AA\nx\n", "vars refused: line 1 rule 7\n"),
    ("read M 0.8\n", "vars refused: line 1 rule 2\n"),
    ("read \"Motor\"\n", "vars refused: line 1 rule 3\n"),
    ("step 1\n", "vars refused: line 1 rule 4\n"),
    ("op 4 read MB3\n", "vars refused: line 1 rule 4\n"),
]


def wants(holds, what):
    if not holds:
        raise Differs(what)


def runs_again(folder, history, run):
    """Runs the image along the printed history, and compares what that writes with the text behind it."""
    folder.write("history", history)
    folder.expect(Call("run image history", 0, run, {}))


def begin(history, head):
    """The lines of a history that begin so."""
    return [line for line in history.splitlines() if line.startswith(head)]


def written_by(folder, words):
    """The parts of what a call writes: the printed history, the text of its run, and of a watch the views."""
    status, out = folder.call(words)
    wants(status == 0, f"status {status}")
    return out.decode().split("---\n")


# A data block of one word.
ONE_WORD = "DATA_BLOCK DB 1 STRUCT a : WORD; END_STRUCT; BEGIN END_DATA_BLOCK\n"


def writing_script(first):
    """A script that writes the word and reads it, again and again, each time with another value from this one on."""
    return "".join(f"write DB1.DBW0 {value:04X}\nread DB1.DBW0\n" for value in range(first, first + 200))


def told_of(history):
    """What a run of this history tells of the word: a write is done, and a read gives what the last write before it wrote."""
    text, number, value = [], 0, "0000"
    for line in history.splitlines():
        kind, rest = line.split(" ", 1)
        number += int(rest) if kind == "step" else 1
        if kind == "op":
            operator, request = rest.split(" ", 1)
            if request.startswith("write DB1.DBW0 "):
                value = request.split()[-1]
                text.append(f"@{number} OP {operator} DONE\n")
            else:
                text.append(f"@{number} OP {operator} VALUES {value}\n")
    return "".join(text) + f"END {number} RUN\nDB 1 0 {value}\n"


def last_write_is_read(folder):
    folder.expect(Call("compile source image", 0, "OK\n", {"image": ANY}))
    history, run = written_by(folder, "live image stimuli first second --steps 4")
    for head in ("op 1", "op 2"):
        wants(len(begin(history, head)) == 400, f"{head}: other requests")
    wants(run == told_of(history), "a read of another value")
    runs_again(folder, history, run)


# The sizes are those of the image's profile: an image, and the reply to a read of MB 300.
SIZES = [(EMPTY, "OP 1 NOSUCH 1"), (LARGE, "OP 1 VALUES 00")]


def replies(reply):
    def is_replied(folder):
        history, run = written_by(folder, "live image stimuli first second --steps 4")
        told = [line for line in run.splitlines() if " OP 1 " in line]
        wants(len(told) == 1 and told[0].endswith(" " + reply), f"{told} in place of {reply}")
        runs_again(folder, history, run)

    return is_replied


# Bit memory byte 3, which operator 1 writes and operator 3 reads, is watched.
WATCHED = {
    "image": EMPTY,
    "stimuli": "in 0 01\nin 0 02\n",
    "vars": "// what is watched\n\nread MB3\n",
    "first": "write MB3 AA\nwrite MB3 BB\nwrite MB3 CC\n",
    "second": "",
    "third": "read MB3\n",
}

# The words, and how many entries come of them: the steps, two inputs, three writes, a hundred reads, and one read of operator 3.
WATCHES = [
    ("watch image stimuli vars first --steps 7", 112),
    ("watch image stimuli vars first second --steps 1", 106),
    ("watch --steps=1000 image stimuli vars first second third", 1106),
]


def are_replies(run, views):
    """Each view is the reply to operator 4 of that number, and none is older than the one before."""
    last, lines = 0, set(run.splitlines())
    for view in views.splitlines():
        seen, number, reply = view.split(" ", 2)
        number = int(number)
        wants(seen == "SEEN" and number >= last, f"{view} behind {last}")
        wants(reply == "NONE" if number == 0 else f"@{number} OP 4 {reply}" in lines, f"{view}, which was no reply")
        last = number


def views_are_replies(words, entries):
    def is_watched(folder):
        history, run, views = written_by(folder, words)
        for head, count in (("op 4 read MB3", 100), ("op 4", 100), ("op 1 write MB3", 3)):
            wants(len(begin(history, head)) == count, f"{head}: other requests")
        wants(len(views.splitlines()) == 100, "other views")
        wants(run.endswith(f"END {entries} RUN\n"), "another end")
        are_replies(run, views)
        runs_again(folder, history, run)

    return is_watched


CASES = [
    *[
        told("statuses of live", LIVE, {"image": image, "stimuli": stimuli, "first": first, "second": second}, status, text)
        for image, stimuli, first, second, status, text in LIVE_STATUSES
    ],
    STOPPED,
    *[
        told("statuses of watch", WATCH, {"image": image, "stimuli": stimuli, "vars": variables, "first": first}, status, text)
        for image, stimuli, variables, first, status, text in WATCH_STATUSES
    ],
    *[told("refused variables", WATCH, {**WATCH_FILES, "vars": variables}, 4, text) for variables, text in VARS],
    # Two operators write one word and read it, beside each other: each reads what was written last.
    Case(
        "the last write is read",
        {"source": ONE_WORD, "stimuli": "in 0 01\n", "first": writing_script(0x1000), "second": writing_script(0xA000)},
        last_write_is_read,
    ),
    *[
        Case("sizes of images", {"image": image, "stimuli": "", "first": "read MB 300\n", "second": ""}, replies(reply))
        for image, reply in SIZES
    ],
    *[Case("views are replies", WATCHED, views_are_replies(words, entries)) for words, entries in WATCHES],
]
