"""The words of a call: commands, options and `--`."""
from calls.cases import ANY, ONE_RUN, ONE_RUN_TEXT, READ_FAULT, REFUSED, RUNG, told

# `none` is empty, and `--symbols` is a source too.
FILES = {"source": RUNG, "history": ONE_RUN, "--symbols": RUNG, "none": ""}

# No command, or a count of words behind it that isn't its own.
COMMANDS = [
    [],
    ["help"],
    ["go"],
    ["go", "source"],
    ["go", "source", "history", "more"],
    ["check"],
    ["check", "source", "more"],
    ["compile"],
    ["compile", "source"],
    ["compile", "source", "image", "more"],
    ["run"],
    ["run", "image"],
    ["run", "image", "history", "more"],
    ["upgrade"],
    ["upgrade", "image"],
    ["upgrade", "image", "upgraded", "more"],
    ["list"],
    ["list", "image"],
    ["list", "image", "text"],
    ["list", "image", "text", "names", "more"],
    ["english", "source"],
    ["english", "source", "text", "more"],
    ["german"],
    ["german", "source"],
    ["bound", "image"],
    ["bound", "image", "certificate", "more"],
    ["recheck"],
    ["recheck", "image"],
    ["recheck", "image", "certificate", "more"],
    ["gen"],
    ["gen", "1", "2"],
    ["live", "--steps", "5"],
    ["live", "image", "--steps", "5"],
    ["live", "image", "stimuli", "--steps", "5"],
    ["live", "image", "stimuli", "1", "2", "3", "4", "5", "--steps", "5"],
    ["watch", "image", "stimuli", "vars", "--steps", "5"],
    ["watch", "image", "stimuli", "--steps", "5"],
    ["watch", "--steps", "5"],
    ["watch", "image", "stimuli", "vars", "1", "2", "3", "4", "--steps", "5"],
    ["GO", "source", "history"],
    ["", "source", "history"],
    ["gone", "source", "history"],
    ["Gen", "1"],
]

# A word that begins with a hyphen is an option. There are three, `--german` without a value and the others with one, each once at most. Help and the
# version are asked for elsewhere.
OPTIONS = [
    ["-x"],
    ["go", "source", "history", "-x"],
    ["--symbols"],
    ["go", "source", "history", "--symbols"],
    ["go", "source", "history", "--steps"],
    ["go", "source", "history", "--symbol", "none"],
    ["--symbols", "-none", "go", "source", "history"],
    ["--steps", "--", "go", "source", "history"],
    ["--symbols", "none", "--symbols", "none", "check", "source"],
    ["--symbols=none", "check", "--symbols", "none", "source"],
    ["check", "source", "--symbols=none", "--symbols=none"],
    ["--symbols", "none", "go", "source"],
    ["check", "source", "--german", "--german"],
    ["check", "source", "--german=true"],
    ["check", "source", "--germ"],
    ["--german"],
    ["live", "image", "stimuli", "ops", "--steps", "5", "--steps", "5"],
    ["go", "--help"],
    ["go", "source", "history", "-h"],
    ["--version", "go"],
]

# `--symbols` and `--german` go with the commands that compile a source, `--steps` with `live` and `watch`, which need it.
OPTIONS_OF_OTHERS = [
    ["watch", "image", "stimuli", "vars", "ops"],
    ["watch", "image", "stimuli", "vars", "ops", "--steps=5", "--symbols=none"],
    ["run", "image", "history", "--symbols", "none"],
    ["upgrade", "image", "upgraded", "--symbols", "none"],
    ["list", "image", "text", "names", "--symbols", "none"],
    ["bound", "image", "certificate", "--symbols", "none"],
    ["recheck", "--symbols=none", "image", "certificate"],
    ["gen", "--symbols=none", "1"],
    ["live", "image", "stimuli", "ops", "--symbols", "none"],
    ["--symbols", "none", "live", "image", "stimuli", "ops", "--steps", "5"],
    ["run", "image", "history", "--german"],
    ["--german", "upgrade", "image", "upgraded"],
    ["list", "image", "--german", "text", "names"],
    ["bound", "--german", "image", "certificate"],
    ["recheck", "image", "certificate", "--german"],
    ["gen", "1", "--german"],
    ["english", "source", "text", "--german"],
    ["german", "source", "text", "--german"],
    ["german", "source", "text", "--symbols=none"],
    ["live", "image", "stimuli", "ops", "--steps=5", "--german"],
    ["--steps", "5", "go", "source", "history"],
    ["check", "--steps", "5", "source"],
    ["compile", "source", "image", "--steps=5"],
    ["run", "--steps=5", "image", "history"],
    ["upgrade", "--steps=5", "image", "upgraded"],
    ["list", "image", "text", "names", "--steps", "5"],
    ["bound", "image", "certificate", "--steps=5"],
    ["recheck", "image", "certificate", "--steps", "5"],
    ["gen", "1", "--steps", "5"],
    ["live", "image", "stimuli", "ops"],
    ["--", "live", "image", "stimuli", "ops", "--steps", "5"],
]

# A number is one or more decimal digits without a sign, at least 1. The limits are 10,000 for `gen` and 1,000,000 for `--steps`, also past 32 and 64
# bits.
NUMBERS = [
    ["gen", ""],
    ["gen", "0"],
    ["gen", "0000"],
    ["gen", "10001"],
    ["gen", "00010001"],
    ["gen", "4294967297"],
    ["gen", "18446744073709551617"],
    ["gen", "+1"],
    ["gen", "-1"],
    ["gen", "--", "-1"],
    ["gen", "1 "],
    ["gen", "1a"],
    ["gen", "0x1"],
    ["gen", "1.0"],
    ["gen", "1,000"],
    ["live", "image", "stimuli", "ops", "--steps", ""],
    ["live", "image", "stimuli", "ops", "--steps="],
    ["live", "image", "stimuli", "ops", "--steps", "0"],
    ["live", "image", "stimuli", "ops", "--steps=000"],
    ["live", "image", "stimuli", "ops", "--steps", "1000001"],
    ["live", "image", "stimuli", "ops", "--steps=4294967297"],
    ["live", "image", "stimuli", "ops", "--steps=18446744073709551617"],
    ["live", "image", "stimuli", "ops", "--steps", "+1"],
    ["live", "image", "stimuli", "ops", "--steps=-1"],
    ["live", "image", "stimuli", "ops", "--steps", " 1"],
    ["live", "image", "stimuli", "ops", "--steps", "five"],
]

# The symbols file may stand anywhere, behind a blank or a `=`.
SYMBOLS_RUN = [
    ["--symbols", "none", "go", "source", "history"],
    ["go", "--symbols", "none", "source", "history"],
    ["go", "source", "--symbols=none", "history"],
    ["go", "source", "history", "--symbols", "none"],
    ["--symbols", "none", "--", "go", "source", "history"],
]

SYMBOLS_CHECKED = [
    ["check", "source", "--symbols=none"],
    ["--symbols", "none", "check", "source"],
]

SYMBOLS_COMPILED = [
    ["--symbols", "none", "compile", "source", "image"],
    ["compile", "--symbols=none", "source", "image"],
    ["compile", "source", "--symbols", "none", "image"],
    ["compile", "source", "image", "--symbols=none"],
]

# The flag may stand anywhere too, and beside `--symbols`. The source has words of English mnemonics alone in its first statement, so that each call
# refuses it.
GERMAN = [
    ["--german", "go", "source", "history"],
    ["go", "--german", "source", "history"],
    ["go", "source", "history", "--german"],
    ["check", "source", "--german", "--symbols=none"],
    ["--symbols", "none", "--german", "check", "source"],
    ["compile", "source", "--german", "--", "-x"],
]

# A value behind a `=` may be anything, and a hyphen alone is a word like any other: each names a file that isn't there.
MISSING_NAMES = [
    ["check", "-"],
    ["check", "source", "--symbols", "-"],
    ["check", "source", "--symbols="],
    ["check", "source", "--symbols", ""],
    ["check", "source", "--symbols=-x"],
    ["check", "source", "--symbols=a=b"],
]

# The words of `live`, `watch`, `run`, `upgrade`, `list`, `bound` and `recheck` are taken, so the image is asked for, which isn't there.
IMAGES = [
    ["run", "image", "history"],
    ["--", "run", "image", "history"],
    ["upgrade", "image", "upgraded"],
    ["--", "upgrade", "image", "image"],
    ["list", "image", "text", "names"],
    ["list", "image", "image", "names"],
    ["--", "list", "image", "text", "--german"],
    ["bound", "image", "certificate"],
    ["recheck", "image", "certificate"],
    ["--", "recheck", "image", "image"],
    ["--steps", "5", "live", "image", "stimuli", "1"],
    ["live", "--steps", "5", "image", "stimuli", "1"],
    ["live", "image", "--steps=5", "stimuli", "1"],
    ["live", "image", "stimuli", "--steps", "5", "1", "2"],
    ["live", "image", "stimuli", "1", "2", "3", "--steps=5"],
    ["live", "image", "stimuli", "1", "2", "--steps", "5", "3", "4"],
    ["live", "image", "stimuli", "1", "--steps", "1"],
    ["live", "image", "stimuli", "1", "--steps", "1000000"],
    ["live", "image", "stimuli", "1", "--steps", "00000001"],
    ["--steps", "5", "--", "live", "image", "stimuli", "--steps"],
    ["watch", "image", "stimuli", "vars", "1", "--steps", "1"],
    ["--steps", "5", "watch", "image", "stimuli", "vars", "1", "2"],
    ["watch", "image", "stimuli", "vars", "1", "2", "3", "--steps=1000000"],
]

# `--` ends the options and is no word of the rest: what stands behind it is the command, if none stood before, and files, also where it begins with a
# hyphen.
ACCEPTED_RUNS = [
    ["go", "source", "history"],
    ["go", "--", "source", "history"],
    ["go", "source", "--", "history"],
    ["go", "source", "history", "--"],
    ["--", "go", "source", "history"],
    ["go", "--", "--symbols", "history"],
]

ACCEPTED_CHECKS = [
    ["check", "source"],
    ["check", "--", "source"],
    ["check", "--", "--symbols"],
]

ACCEPTED_COMPILED = [
    (["compile", "source", "image"], "image"),
    (["--", "compile", "source", "image"], "image"),
    (["compile", "--", "source", "-x"], "-x"),
    (["compile", "--symbols=none", "--", "--symbols", "image"], "image"),
]


def answered(what, calls, status, text):
    return [told(what, words, FILES, status, text) for words in calls]


CASES = [
    *answered("commands", COMMANDS, 1, REFUSED),
    *answered("options", OPTIONS, 1, REFUSED),
    *answered("options of others", OPTIONS_OF_OTHERS, 1, REFUSED),
    *answered("numbers", NUMBERS, 1, REFUSED),
    *answered("symbols", SYMBOLS_RUN, 0, ONE_RUN_TEXT),
    *answered("symbols", SYMBOLS_CHECKED, 0, "OK\n"),
    *[told("symbols", words, FILES, 0, "OK\n", {"image": ANY}) for words in SYMBOLS_COMPILED],
    *answered("German", GERMAN, 2, "source refused: line 3 rule 17\n"),
    # Behind `--` it is a file, which isn't there.
    told("German", ["check", "--", "--german"], FILES, *READ_FAULT),
    told("German", ["english", "none", "--", "--german"], FILES, 0, "OK\n", {"--german": ANY}),
    *answered("missing names", MISSING_NAMES, *READ_FAULT),
    *answered("images", IMAGES, *READ_FAULT),
    *answered("accepted", ACCEPTED_RUNS, 0, ONE_RUN_TEXT),
    *answered("accepted", ACCEPTED_CHECKS, 0, "OK\n"),
    *[told("accepted", words, FILES, 0, "OK\n", {name: ANY}) for words, name in ACCEPTED_COMPILED],
]
