"""Calls with a file of symbols: what symbols mean, and in which order files are checked."""
from calls.cases import told

# A program with symbols as STEP 7 exports both; `Enable` is also written without its case.
EXPORTED = "ORGANIZATION_BLOCK OB 1\nBEGIN\nNETWORK\nTITLE = add\nA(    ;\nA     \"ENABLE\";\nJNB   _001;\nL     MW     2;\nL     5;\n+I    ;\nT     MW     4;\nAN    OV;\nSAVE  ;\nCLR   ;\n_001: A     BR;\n)     ;\n=     Q      4.0;\nEND_ORGANIZATION_BLOCK\n"

# A source, its symbols, a history, the status, and the text.
RUNS = [
    (EXPORTED, "\"Enable\",\"I       0.0\",\"BOOL      \",\"on\"\r\n", "in 0 01\nstep 16\n", 0, "@17 PQ 4 = 01\nEND 17 RUN\n"),
    # Without the symbol the operand names nothing.
    (EXPORTED, "", "", 2, "source refused: line 6 rule 20\n"),
    # The first rule of the symbols, whatever the source and the history break.
    ("SET $", "a,I 0.0,BOOL,\nb,I 0.1,BOOL\n", "stop\n", 2, "symbols refused: line 2 rule 14\n"),
    ("SET $", "a,I 0.0,BYTE,\n", "stop\n", 2, "symbols refused: line 1 rule 15\n"),
    ("", "a,I 0.0,BOOL,\n\nA,I 0.1,BOOL,\n", "stop\n", 2, "symbols refused: line 3 rule 16\n"),
    # Then the source, whatever the history breaks; then the history.
    ("SET;", "a,I 0.0,BOOL,\n", "stop\n", 2, "source refused: line 1 rule 11\n"),
    ("", "a,I 0.0,BOOL,\n", "stop\n", 4, "history refused: line 1 rule 4\n"),
    ("", "a,I 0.0,BOOL,\n", "step\n", 0, "END 1 RUN\n"),
    # A history names variables by symbols too, whatever their case, and nothing else.
    (
        "",
        "On,I 0.0,BOOL,\nSet value,MW 4,INT,\n",
        "in 0 01\nop 1 write \"SET VALUE\" 00fF\nstep\nop 2 read \"on\", \"Set Value\", MB5\n",
        0,
        "@2 OP 1 DONE\n@4 OP 2 VALUES 1 00FF FF\nEND 4 RUN\n",
    ),
    ("", "On,I 0.0,BOOL,\nRun,T 1,TIMER,\n", "op 1 read \"On\"\nop 1 read \"On\", \"Run\"\n", 4, "history refused: line 2 rule 3\n"),
    (
        EXPORTED,
        "\"Enable\",\"I       0.0\",\"BOOL      \",\"on\"\n",
        "op 1 write MW2 0007\nin 0 01\nstep 15\nop 1 read MW4\nstep 1\n",
        0,
        "@1 OP 1 DONE\n@18 OP 1 VALUES 000C\n@19 PQ 4 = 01\nEND 19 RUN\n",
    ),
]

CHECKS = [
    (EXPORTED, "\"Enable\",\"I       0.0\",\"BOOL      \",\"on\"\n", "", 0, "OK\n"),
    ("", "a,I 0.0,BOOL,\nb,I 0.1,BOOL\n", "", 2, "symbols refused: line 2 rule 14\n"),
    # The symbols file is read before the source, which has a token that is none.
    ("?\n", "a,I 0.0,BOOL,\nb,I 0.1,BOOL\n", "", 2, "symbols refused: line 2 rule 14\n"),
    ("?\n", "", "", 2, "source refused: line 1 rule 1\n"),
    # The symbol is a byte, and the instruction takes a bit.
    (
        "ORGANIZATION_BLOCK OB 1\nBEGIN\nA \"speed\";\nEND_ORGANIZATION_BLOCK\n",
        "speed,MB 7,BYTE,\n",
        "",
        2,
        "source refused: line 3 rule 24\n",
    ),
    # A block by its symbol.
    (
        "FUNCTION \"stop all\" : VOID\nBEGIN\nEND_FUNCTION\nORGANIZATION_BLOCK OB 1\nBEGIN\nUC \"Stop All\";\nEND_ORGANIZATION_BLOCK\n",
        "stop all,FC 7,FC 7,\n",
        "",
        0,
        "OK\n",
    ),
]


def with_symbols(what, words, rows):
    return [
        told(what, words, {"source": source, "symbols": symbols, "history": history}, status, text)
        for source, symbols, history, status, text in rows
    ]


CASES = [
    *with_symbols("runs with symbols", "go source history --symbols symbols", RUNS),
    *with_symbols("checks with symbols", "--symbols symbols check source", CHECKS),
]
