"""`english` and `german`, and German programs: what is written, and in which order causes are told."""
from calls.cases import ANY, ONE_RUN, ONE_RUN_TEXT, READ_FAULT, Call, Case, told

# English and German, worked out by hand. In the second source `br5` is a variable, no operand with a number; in the third and the fourth a word
# behind a colon is no keyword, so what stands behind it is no body.
PAIRS = [
    (
        "ORGANIZATION_BLOCK OB 1\nBEGIN\nL IW 2;\nJC _001;\nT QW 4;\n_001: BEU;\nEND_ORGANIZATION_BLOCK\n",
        "ORGANIZATION_BLOCK OB 1\nBEGIN\nL EW 2;\nSPB _001;\nT AW 4;\n_001: BEA;\nEND_ORGANIZATION_BLOCK\n",
    ),
    (
        "ORGANIZATION_BLOCK OB 1\nVAR_TEMP\nbr5 : INT;\nEND_VAR\nBEGIN\nL br5;\nA BR;\nEND_ORGANIZATION_BLOCK\n",
        "ORGANIZATION_BLOCK OB 1\nVAR_TEMP\nbr5 : INT;\nEND_VAR\nBEGIN\nL br5;\nU BIE;\nEND_ORGANIZATION_BLOCK\n",
    ),
    (
        "DATA_BLOCK DB 1\nNAME : FUNCTION\nSTRUCT\nA : INT;\nEND_STRUCT;\nBEGIN\nA := 6;\nEND_DATA_BLOCK\n",
        "DATA_BLOCK DB 1\nNAME : FUNCTION\nSTRUCT\nA : INT;\nEND_STRUCT;\nBEGIN\nA := 6;\nEND_DATA_BLOCK\n",
    ),
    (
        "FUNCTION FC 1 : VOID\nAUTHOR : BEGIN\nVAR_TEMP\nI : BOOL;\nA : BOOL;\nEND_VAR\nBEGIN\nA #I;\n= #A;\nEND_FUNCTION\n",
        "FUNCTION FC 1 : VOID\nAUTHOR : BEGIN\nVAR_TEMP\nI : BOOL;\nA : BOOL;\nEND_VAR\nBEGIN\nU #I;\n= #A;\nEND_FUNCTION\n",
    ),
    ("", ""),
]

TRANSLATED = [
    *[("english", german, english) for english, german in PAIRS],
    *[("german", english, german) for english, german in PAIRS],
    # Words in lower case come in upper case, and a name that is an operand of the other language alone gets a `#`, which stays on the way back.
    (
        "german",
        "FUNCTION FC 1 : VOID\nVAR_TEMP\nE : BOOL;\nEND_VAR\nBEGIN\na E;\nEND_FUNCTION\n",
        "FUNCTION FC 1 : VOID\nVAR_TEMP\nE : BOOL;\nEND_VAR\nBEGIN\nU #E;\nEND_FUNCTION\n",
    ),
]

# A translation that stands in the place of its source.
OVER_ITSELF = told(
    "a translation over its source",
    "english text text",
    {"text": "ORGANIZATION_BLOCK OB 1 BEGIN U E 0.0; END_ORGANIZATION_BLOCK"},
    0,
    "OK\n",
    {"text": "ORGANIZATION_BLOCK OB 1 BEGIN A I 0.0; END_ORGANIZATION_BLOCK"},
)

# Output 4.0 is input 0.0 and not input 0.1.
RUNG = "ORGANIZATION_BLOCK OB 1\nBEGIN\nU E 0.0;\nUN E 0.1;\n= A 4.0;\nEND_ORGANIZATION_BLOCK\n"

# The same by symbols, behind a counter that counts the first of them.
NAMED = "ORGANIZATION_BLOCK OB 1\nBEGIN\nU \"an\";\nZV \"zahl\";\nU \"Zahl\";\n= \"aus\";\nEND_ORGANIZATION_BLOCK\n"

NAMES = "an,E 0.0,BOOL,\r\nzahl,Z 1,COUNTER,\r\naus,A       4.0,BOOL,\r\n"

# A source, its symbols, a history, the status, and the text.
RUNS = [
    (RUNG, "", "in 0 01\nstep 6\n", 0, "@7 PQ 4 = 01\nEND 7 RUN\n"),
    (NAMED, NAMES, "in 0 01\nstep 7\n", 0, "@8 PQ 4 = 01\nEND 8 RUN\n"),
    # An operator may name them too; her addresses are English.
    (NAMED, NAMES, "op 1 write \"aus\" 1\nop 1 read QB4\n", 0, "@1 OP 1 DONE\n@2 OP 1 VALUES 01\nEND 2 RUN\n"),
    # A word of English mnemonics alone.
    ("ORGANIZATION_BLOCK OB 1\nBEGIN\nJU x;\nx: NOP 0;\nEND_ORGANIZATION_BLOCK\n", "", "", 2, "source refused: line 3 rule 17\n"),
    # The line of the word, where its statement has several.
    ("ORGANIZATION_BLOCK OB 1\nBEGIN\nU\nI\n0.0;\nEND_ORGANIZATION_BLOCK\n", "", "", 2, "source refused: line 4 rule 17\n"),
    # Tokens that are right, and aren't in the translation: `P#C#x` has a count without a number.
    ("ORGANIZATION_BLOCK OB 1\nBEGIN\nL P#Z#x;\nEND_ORGANIZATION_BLOCK\n", "", "", 2, "source refused: line 3 rule 3\n"),
    # An unknown label is told of the translation, in the same line; then the history.
    ("ORGANIZATION_BLOCK OB 1\nBEGIN\nSPA x;\nEND_ORGANIZATION_BLOCK\n", "", "tick 0\n", 2, "source refused: line 3 rule 26\n"),
    (RUNG, "", "tick 0\n", 4, "history refused: line 1 rule 2\n"),
    # English letters in a German symbols file.
    (RUNG, "a,I 0.0,BOOL,\n", "", 2, "symbols refused: line 1 rule 15\n"),
    (RUNG, "\na,Q 4.0,BOOL,\n", "", 2, "symbols refused: line 2 rule 15\n"),
    (RUNG, "a,C 1,COUNTER,\n", "", 2, "symbols refused: line 1 rule 15\n"),
    (RUNG, "a,PIW 256,WORD,\n", "", 2, "symbols refused: line 1 rule 15\n"),
]

def same_images(folder):
    """The image of a German source is that of its translation."""
    folder.expect(Call("compile source one --german", 0, "OK\n", {"one": ANY}))
    folder.expect(Call("english source text", 0, "OK\n", {"text": ANY}))
    folder.expect(Call("compile text other", 0, "OK\n", {"other": folder.files()["one"]}))
    folder.expect(Call("run one history", 0, ONE_RUN_TEXT, {}))


# The most bytes of a source.
LONGEST = 1_048_576

# Of its translation to English, which is one byte longer: the name of line 6 gets a `#`. In line 7 stands a word of English mnemonics, and in line
# 8 a bit that no byte has.
ALL_WRONG = "ORGANIZATION_BLOCK OB 1\nVAR_TEMP\nI : BOOL;\nEND_VAR\nBEGIN\nU I;\nJU x;\nL M 0.8;\nEND_ORGANIZATION_BLOCK\n"

# The same without the word of English mnemonics.
CLAUSE_WRONG = "ORGANIZATION_BLOCK OB 1\nVAR_TEMP\nI : BOOL;\nEND_VAR\nBEGIN\nU I;\n\nL M 0.8;\nEND_ORGANIZATION_BLOCK\n"

# And with all right.
RIGHT = "ORGANIZATION_BLOCK OB 1\nVAR_TEMP\nI : BOOL;\nEND_VAR\nBEGIN\nU I;\n= I;\n\nEND_ORGANIZATION_BLOCK\n"

# A source, its bytes with the blanks behind it, symbols, status and line: symbols are checked first, then words of the other language, then how long
# the translation is, and then clauses.
ORDER = [
    (ALL_WRONG, LONGEST, "a,I 0.0,BOOL,\n", 2, "symbols refused: line 1 rule 15\n"),
    (ALL_WRONG, LONGEST, "", 2, "source refused: line 7 rule 17\n"),
    (CLAUSE_WRONG, LONGEST, "", 8, "too long: result\n"),
    (
        CLAUSE_WRONG,
        LONGEST - 1,
        "",
        2,
        "source refused: line 8 rule 10\n",
    ),
    # All of the source is read, whatever it breaks.
    (ALL_WRONG, LONGEST + 1, "", 8, "too long: source\n"),
]

# `english` judges words of the other language, and then the length; clauses needn't be right.
REFUSED = [
    (ALL_WRONG, LONGEST, 2, "source refused: line 7 rule 17\n"),
    (CLAUSE_WRONG, LONGEST, 8, "too long: result\n"),
    (RIGHT, LONGEST, 8, "too long: result\n"),
    (RIGHT, LONGEST + 1, 8, "too long: source\n"),
    ("\n\"a\n", 4, 2, "source refused: line 2 rule 2\n"),
    # A token that breaks a rule comes before a word of the other language.
    ("ORGANIZATION_BLOCK OB 1 BEGIN JU x;\n$", 37, 2, "source refused: line 2 rule 1\n"),
]

# A source that isn't there, and one that is too long.
NOT_READ = [
    ("english none text", {"source": ""}, *READ_FAULT),
    ("german none text", {"source": ""}, *READ_FAULT),
    ("german source text", {"source": " " * (LONGEST + 1)}, 8, "too long: source\n"),
]

# Each call leaves `text` as it is where it doesn't write a translation there.
CASES = [
    *[told("translations", f"{to} source text", {"source": source, "text": "x"}, 0, "OK\n", {"text": text}) for to, source, text in TRANSLATED],
    OVER_ITSELF,
    *[
        told("German runs", "go source history --german --symbols symbols", {"source": source, "symbols": symbols, "history": history}, status, text)
        for source, symbols, history, status, text in RUNS
    ],
    # German letters without the flag.
    told("German symbols of an English source", "check source --symbols symbols", {"source": "", "symbols": NAMES}, 2, "symbols refused: line 1 rule 15\n"),
    Case("the image of a translation", {"source": RUNG, "history": ONE_RUN}, same_images),
    *[
        told("the order of causes", words, {"source": source.ljust(length), "history": ONE_RUN, "symbols": symbols, "text": "x"}, status, text)
        for source, length, symbols, status, text in ORDER
        for words in (
            "go source history --german --symbols=symbols",
            "check --german source --symbols=symbols",
            "--german compile source text --symbols=symbols",
        )
    ],
    *[told("refused sources", "english source text", {"source": source.ljust(length), "text": "x"}, status, text) for source, length, status, text in REFUSED],
    # A translation as long as a source may be: the two names of lines 6 and 7 get a `#` each.
    told(
        "the longest translation",
        "english source text",
        {"source": RIGHT.ljust(LONGEST - 2), "text": "x"},
        0,
        "OK\n",
        {"text": RIGHT.replace("U I;\n= I;", "A #I;\n= #I;").ljust(LONGEST)},
    ),
    *[told("sources that aren't read", words, {**files, "text": "x"}, status, text) for words, files, status, text in NOT_READ],
]
