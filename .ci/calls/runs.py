"""Whole runs of the language: what `go` writes of a source along a history, and `run` of its image."""
from calls.cases import ONE_RUN, RUNG, gone, run_both, told

# A source, a history, the status, and the text.
RUNS = [
    (RUNG, ONE_RUN, 0, "@7 PQ 4 = 01\nEND 7 RUN\n"),
    (RUNG, "in 0 01\nstep 5\n", 0, "END 6 RUN\n"),
    ("", "step 2\n", 0, "END 2 RUN\n"),
    # Two branches of A before =, joined by O: 0.2 is on, and 0.3 too.
    (
        "ORGANIZATION_BLOCK OB 1\nBEGIN\nA I 0.0;\nA I 0.1;\nO;\nA I 0.2;\nA I 0.3;\n= Q 4.0;\nEND_ORGANIZATION_BLOCK\n",
        "in 0 0E\nstep 9\n",
        0,
        "@10 PQ 4 = 01\nEND 10 RUN\n",
    ),
    # The first branch alone: 0.0 is on, and 0.1 too.
    (
        "ORGANIZATION_BLOCK OB 1\nBEGIN\nA I 0.0;\nA I 0.1;\nO;\nA I 0.2;\nA I 0.3;\n= Q 4.0;\nEND_ORGANIZATION_BLOCK\n",
        "in 0 03\nstep 9\n",
        0,
        "@10 PQ 4 = 01\nEND 10 RUN\n",
    ),
    # OB 40 interrupts behind the first A, whose result comes back.
    (
        "ORGANIZATION_BLOCK OB 1\nBEGIN\nA I 0.0;\n= Q 4.0;\nEND_ORGANIZATION_BLOCK\nORGANIZATION_BLOCK OB 40\nBEGIN\nA I 0.1;\n= Q 5.0;\nEND_ORGANIZATION_BLOCK\n",
        "in 0 01\nstep 2\narrive 40\nstep 6\n",
        0,
        "@10 PQ 4 = 01\nEND 10 RUN\n",
    ),
    # OB 40 isn't loaded.
    (RUNG, "in 0 01\nstep 6\narrive 40\n", 0, "@7 PQ 4 = 01\n@8 PQ 4 = 00\n@8 MODE STOP 8 AT OB 1 LINE 3\nEND 8 STOP 8\n"),
    # The first interrupt starts OB 40, eight wait, and the tenth is one too many.
    (
        "ORGANIZATION_BLOCK OB 40\nBEGIN\nSET;\nEND_ORGANIZATION_BLOCK\n",
        "arrive 40\narrive 40\narrive 40\narrive 40\narrive 40\narrive 40\narrive 40\narrive 40\narrive 40\narrive 40\n",
        0,
        "@10 MODE STOP 9 AT OB 40 LINE 3\nEND 10 STOP 9\n",
    ),
    # A network with a title, which holds a `;`, words in lower case, a comment, no last line end.
    (
        "ORGANIZATION_BLOCK OB 1\nBEGIN\nNETWORK\nTITLE = x ; y\na I 0.0 ; // c\n= Q 4.0;\nEND_ORGANIZATION_BLOCK",
        "in 0 01\nstep 5\n",
        0,
        "@6 PQ 4 = 01\nEND 6 RUN\n",
    ),
    # M0.0 and M 0.0 are one bit, and `;` alone is no step.
    (
        "ORGANIZATION_BLOCK OB 1\nBEGIN\nAN M0.0;\n= M 0.0;\n;\nA M0.0;\n= Q4.0;\nEND_ORGANIZATION_BLOCK\n",
        "step 7\n",
        0,
        "@7 PQ 4 = 01\nEND 7 RUN\n",
    ),
    # A line that is no entry; a statement outside of a block, whatever the history is.
    (RUNG, "tick 0\n", 4, "history refused: line 1 rule 2\n"),
    (RUNG, "step\narrive 50\n", 4, "history refused: line 2 rule 2\n"),
    (RUNG, "op 5 diag\n", 4, "history refused: line 1 rule 5\n"),
    ("L 1;\n", ONE_RUN, 2, "source refused: line 1 rule 11\n"),
    ("L 1;\n", "tick 0\n", 2, "source refused: line 1 rule 11\n"),
    # The line of the operand that names nothing, before that of the label.
    (
        "ORGANIZATION_BLOCK OB 1\nBEGIN\nNOP 0;\nA \"nix\";\nSET;\nSET;\nSET;\nSET;\nJU nope;\nEND_ORGANIZATION_BLOCK\n",
        ONE_RUN,
        2,
        "source refused: line 4 rule 20\n",
    ),
    ("", "", 0, "END 0 RUN\n"),
]

# A source, a history, and the text of the run. Initial bytes of data blocks, and what `BEGIN` sets.
DATA_BLOCKS = [
    (
        "DATA_BLOCK DB 1 STRUCT a : BOOL; b : BOOL := TRUE; c : BYTE := B#16#5; d : INT := 7; e : BOOL := TRUE; END_STRUCT; BEGIN END_DATA_BLOCK",
        "",
        "END 0 RUN\nDB 1 0 020500070100\n",
    ),
    (
        "DATA_BLOCK DB 1 STRUCT a : ARRAY [0..7] OF BYTE := 3 (B#16#1), B#16#2, 4 (B#16#0); END_STRUCT; BEGIN a[7] := B#16#9; END_DATA_BLOCK",
        "",
        "END 0 RUN\nDB 1 0 0101010200000009\n",
    ),
    # By rising number, 32 bytes in a line, and what is left in the last one.
    (
        "DATA_BLOCK DB 9 STRUCT a : ARRAY [0..32] OF BYTE := 33 (B#16#A7); END_STRUCT; BEGIN END_DATA_BLOCK DATA_BLOCK DB 2 STRUCT a : ARRAY [0..31] OF BYTE; END_STRUCT; BEGIN END_DATA_BLOCK",
        "",
        "END 0 RUN\nDB 2 0 0000000000000000000000000000000000000000000000000000000000000000\nDB 9 0 A7A7A7A7A7A7A7A7A7A7A7A7A7A7A7A7A7A7A7A7A7A7A7A7A7A7A7A7A7A7A7A7\nDB 9 32 A700\n",
    ),
    # A word past the end of the open data block; OB 121 isn't loaded.
    (
        "DATA_BLOCK DB 10 STRUCT a : ARRAY [0..9] OF BYTE; END_STRUCT; BEGIN END_DATA_BLOCK\nORGANIZATION_BLOCK OB 1\nBEGIN\nOPN DB 10;\nL DBW 100;\nT MW 0;\nEND_ORGANIZATION_BLOCK\n",
        "step 3\n",
        "@3 MODE STOP 3 AT OB 1 LINE 5\nEND 3 STOP 3\nDB 10 0 00000000000000000000\n",
    ),
]

# Numbers, jumps, local data, brackets and timers in OB 1, and interrupts.
STATEMENTS = [
    ("ORGANIZATION_BLOCK OB 1\nBEGIN\nL 32767;\nL 1;\n+I;\nT QW 4;\nEND_ORGANIZATION_BLOCK\n", "step 7\n", "@7 PQ 4 = 80\nEND 7 RUN\n"),
    (
        "ORGANIZATION_BLOCK OB 1\nBEGIN\nL 5;\nT QW 12;\nEND_ORGANIZATION_BLOCK\nORGANIZATION_BLOCK OB 40\nBEGIN\nL 99;\nT QW 10;\nEND_ORGANIZATION_BLOCK\n",
        "step 2\narrive 40\nstep 6\n",
        "@9 PQ 11 = 63\n@9 PQ 13 = 05\nEND 9 RUN\n",
    ),
    (
        "ORGANIZATION_BLOCK OB 40\nBEGIN\nL LB 1;\nT PQB 300;\nEND_ORGANIZATION_BLOCK\n",
        "arrive 40\nstep 2\n",
        "@3 PQ 300 = 41\nEND 3 RUN\n",
    ),
    # The value of an arrival stands in bytes 8 to 11 of the start information.
    (
        "ORGANIZATION_BLOCK OB 17\nBEGIN\nL LD 8;\nT PQD 256;\nEND_ORGANIZATION_BLOCK\n",
        "arrive 17 00A0f001\nstep 2\n",
        "@3 PQ 257 = A0\n@3 PQ 258 = F0\n@3 PQ 259 = 01\nEND 3 RUN\n",
    ),
    # Seven brackets, one in the other.
    (
        "ORGANIZATION_BLOCK OB 1\nBEGIN\nA(;\nA(;\nA(;\nA(;\nA(;\nA(;\nA(;\nA I 0.0;\n);\n);\n);\n);\n);\n);\n);\n= Q 4.0;\nEND_ORGANIZATION_BLOCK\n",
        "in 0 01\nstep 19\n",
        "@20 PQ 4 = 01\nEND 20 RUN\n",
    ),
    # OB 40 interrupts in a bracket and has one of its own: 1 X (0), and AN (0).
    (
        "ORGANIZATION_BLOCK OB 1\nBEGIN\nA I 0.0;\nX(;\nO I 0.1;\n);\n= Q 4.0;\nEND_ORGANIZATION_BLOCK\nORGANIZATION_BLOCK OB 40\nBEGIN\nAN(;\nA I 0.1;\n);\n= Q 5.0;\nEND_ORGANIZATION_BLOCK\n",
        "in 0 01\nstep 3\narrive 40\nstep 10\n",
        "@15 PQ 4 = 01\n@15 PQ 5 = 01\nEND 15 RUN\n",
    ),
    # An on-delay of 50 ms is over after 50 ms, and not after 49.
    (
        "ORGANIZATION_BLOCK OB 1\nBEGIN\nA I 0.0;\nL S5T#50MS;\nSD T 1;\nA T 1;\n= Q 4.0;\nEND_ORGANIZATION_BLOCK\n",
        "in 0 01\nstep 7\ntick 50\nstep 8\n",
        "@17 PQ 4 = 01\nEND 17 RUN\n",
    ),
    (
        "ORGANIZATION_BLOCK OB 1\nBEGIN\nA I 0.0;\nL S5T#50MS;\nSD T 1;\nA T 1;\n= Q 4.0;\nEND_ORGANIZATION_BLOCK\n",
        "in 0 01\nstep 7\ntick 49\nstep 8\n",
        "END 17 RUN\n",
    ),
    # An OB 1 as STEP 7 writes it; start code 16#01 in the first cycle.
    (
        "ORGANIZATION_BLOCK OB 1\nTITLE = \"Main Program Sweep (Cycle)\"\nVERSION : 0.1\nVAR_TEMP\nOB1_EV_CLASS : BYTE ; //Bits 0-3 = 1\nOB1_SCAN_1 : BYTE ;\nOB1_PRIORITY : BYTE ;\nOB1_OB_NUMBR : BYTE ;\nOB1_RESERVED_1 : BYTE ;\nOB1_RESERVED_2 : BYTE ;\nOB1_PREV_CYCLE : INT ;\nOB1_MIN_CYCLE : INT ;\nOB1_MAX_CYCLE : INT ;\nOB1_DATE_TIME : DATE_AND_TIME ;\nEND_VAR\nBEGIN\nNETWORK\nTITLE =\nL #OB1_SCAN_1;\nT QB 4;\nEND_ORGANIZATION_BLOCK\n",
        "step 5\n",
        "@5 PQ 4 = 01\nEND 5 RUN\n",
    ),
    # A label, a jump over a statement, and a bit of memory.
    (
        "ORGANIZATION_BLOCK OB 1\nBEGIN\nSET;\nJU over;\nCLR;\nover: = M 1.0;\nA M 1.0;\n= Q 0.7;\nEND_ORGANIZATION_BLOCK\n",
        "step 8\n",
        "@8 PQ 0 = 80\nEND 8 RUN\n",
    ),
    # 2 s are 200 units of 10 ms, 9,990 s are 999 units of 10 s.
    (
        "ORGANIZATION_BLOCK OB 1\nBEGIN\nL S5T#2S;\nT QW 4;\nL S5T#2H46M30S;\nT QW 6;\nEND_ORGANIZATION_BLOCK\n",
        "step 7\n",
        "@7 PQ 4 = 02\n@7 PQ 6 = 39\n@7 PQ 7 = 99\nEND 7 RUN\n",
    ),
]

# Functions, function blocks and their data blocks, nesting that is too deep, and the ends of memory.
CALLS = [
    (
        "FUNCTION_BLOCK FB 1\nVAR_INPUT a : INT; END_VAR\nVAR_OUTPUT b : INT; END_VAR\nBEGIN\nL #a; L 1; +I; T #b;\nEND_FUNCTION_BLOCK\nDATA_BLOCK DB 5 FB 1 BEGIN END_DATA_BLOCK\nORGANIZATION_BLOCK OB 1\nBEGIN\nCALL FB 1, DB 5 (a := IW 0, b := QW 4);\nEND_ORGANIZATION_BLOCK\n",
        "in 1 09\nstep 9\n",
        "@10 PQ 5 = 0A\nEND 10 RUN\nDB 5 0 0009000A\n",
    ),
    (
        "FUNCTION_BLOCK FB 1\nVAR_INPUT a : INT; END_VAR\nVAR_OUTPUT b : INT; END_VAR\nBEGIN\nL #a; L 1; +I; T #b;\nEND_FUNCTION_BLOCK\nDATA_BLOCK DB 5 FB 1 BEGIN END_DATA_BLOCK\nORGANIZATION_BLOCK OB 1\nBEGIN\nCALL FB 1, DB 5 (a := IW 0, b := QW 4);\nEND_ORGANIZATION_BLOCK\n",
        "in 1 09\nstep 5\n",
        "END 6 RUN\nDB 5 0 00090000\n",
    ),
    # The twenty-fifth block of a chain.
    (
        "FUNCTION FC 1 : VOID\nBEGIN\nCALL FC 1;\nEND_FUNCTION\nORGANIZATION_BLOCK OB 1\nBEGIN\nCALL FC 1;\nEND_ORGANIZATION_BLOCK\n",
        "step 25\n",
        "@25 MODE STOP 6 AT FC 1 LINE 3\nEND 25 STOP 6\n",
    ),
    # The last bits of bit memory, and the last timer and counter that there are.
    (
        "ORGANIZATION_BLOCK OB 1\nBEGIN\nSET;\n= M 2047.7;\nA M 2047.7;\nCU C 255;\nA C 255;\nAN T 255;\n= Q 4.0;\nA M 2048.0;\nEND_ORGANIZATION_BLOCK\n",
        "step 8\nop 1 read MB2047\nstep 1\n",
        "@9 OP 1 VALUES 80\n@10 MODE STOP 3 AT OB 1 LINE 10\nEND 10 STOP 3\n",
    ),
    ("ORGANIZATION_BLOCK OB 1\nBEGIN\nA T 256;\nEND_ORGANIZATION_BLOCK\n", "step 2\n", "@2 MODE STOP 3 AT OB 1 LINE 3\nEND 2 STOP 3\n"),
    ("ORGANIZATION_BLOCK OB 1\nBEGIN\nA C 256;\nEND_ORGANIZATION_BLOCK\n", "step 2\n", "@2 MODE STOP 3 AT OB 1 LINE 3\nEND 2 STOP 3\n"),
    # The local data of OB 1 and of two calls don't fit.
    (
        "FUNCTION FC 1 : VOID\nVAR_TEMP x : ARRAY [0..299] OF WORD; END_VAR\nBEGIN\nCALL FC 1;\nEND_FUNCTION\nORGANIZATION_BLOCK OB 1\nBEGIN\nCALL FC 1;\nEND_ORGANIZATION_BLOCK\n",
        "step 3\n",
        "@3 MODE STOP 7 AT FC 1 LINE 4\nEND 3 STOP 7\n",
    ),
]

# Startup, time and error organization blocks, and system functions.
ORGANIZATION_BLOCKS = [
    # The first bytes of the start information: 16#11, the start code, the class and the number. OB 40 has
    # class 16, OB 1 class 1 and another start code from the second cycle on.
    (
        "ORGANIZATION_BLOCK OB 40\nBEGIN\nL LD 0;\nT PQD 300;\nEND_ORGANIZATION_BLOCK\n",
        "arrive 40\nstep 2\n",
        "@3 PQ 300 = 11\n@3 PQ 301 = 41\n@3 PQ 302 = 10\n@3 PQ 303 = 28\nEND 3 RUN\n",
    ),
    (
        "ORGANIZATION_BLOCK OB 1\nBEGIN\nL LD 0;\nT PQD 300;\nEND_ORGANIZATION_BLOCK\n",
        "step 7\n",
        "@3 PQ 300 = 11\n@3 PQ 301 = 01\n@3 PQ 302 = 01\n@3 PQ 303 = 01\n@7 PQ 301 = 03\nEND 7 RUN\n",
    ),
    # 151 ms without a cycle point: OB 80 isn't loaded.
    ("", "tick 150\ntick 1\n", "@2 MODE STOP 9 AT NONE\nEND 2 STOP 9\n"),
    # With OB 80 the first excess starts it, and the second stops.
    (
        "ORGANIZATION_BLOCK OB 80\nBEGIN\nNOP 0;\nEND_ORGANIZATION_BLOCK\n",
        "tick 151\ntick 151\n",
        "@2 MODE STOP 10 AT OB 80 LINE 3\nEND 2 STOP 10\n",
    ),
    # A period of OB 38 that ends while it waits for its start; with OB 80 the cycle time ends the tick.
    ("ORGANIZATION_BLOCK OB 38\nBEGIN\nNOP 0;\nEND_ORGANIZATION_BLOCK\n", "tick 60000\n", "@1 MODE STOP 9 AT NONE\nEND 1 STOP 9\n"),
    (
        "ORGANIZATION_BLOCK OB 38\nBEGIN\nNOP 0;\nEND_ORGANIZATION_BLOCK\nORGANIZATION_BLOCK OB 80\nBEGIN\nNOP 0;\nEND_ORGANIZATION_BLOCK\n",
        "tick 60000\n",
        "@1 MODE STOP 10 AT NONE\nEND 1 STOP 10\n",
    ),
    # In STARTUP an on-delay of 50 s is over after 50,000 ms, and not after 49,999.
    (
        "ORGANIZATION_BLOCK OB 100\nBEGIN\nSET;\nL S5T#50S;\nSD T 1;\nA T 1;\n= Q 4.0;\nEND_ORGANIZATION_BLOCK\n",
        "step 3\ntick 50000\nstep 4\n",
        "@7 MODE RUN\n@8 PQ 4 = 01\nEND 8 RUN\n",
    ),
    (
        "ORGANIZATION_BLOCK OB 100\nBEGIN\nSET;\nL S5T#50S;\nSD T 1;\nA T 1;\n= Q 4.0;\nEND_ORGANIZATION_BLOCK\n",
        "step 3\ntick 49999\nstep 4\n",
        "@7 MODE RUN\nEND 8 RUN\n",
    ),
    # The program stops the controller.
    ("ORGANIZATION_BLOCK OB 1\nBEGIN\nCALL SFC 46;\nEND_ORGANIZATION_BLOCK\n", "step 2\n", "@2 MODE STOP 1 AT OB 1 LINE 3\nEND 2 STOP 1\n"),
    # OB 40 waits while interrupts are disabled.
    (
        "ORGANIZATION_BLOCK OB 1\nBEGIN\nCALL SFC 41 (RET_VAL := QW 20);\nCALL SFC 41 (RET_VAL := QW 22);\nCALL SFC 42 (RET_VAL := QW 24);\nCALL SFC 42 (RET_VAL := QW 26);\nEND_ORGANIZATION_BLOCK\nORGANIZATION_BLOCK OB 40\nBEGIN\nL 7;\nT QB 30;\nEND_ORGANIZATION_BLOCK\n",
        "step 3\narrive 40\nstep 7\n",
        "@11 PQ 21 = 01\n@11 PQ 23 = 02\n@11 PQ 25 = 01\n@11 PQ 30 = 07\nEND 11 RUN\n",
    ),
    # OB 121 handles the access to a byte that isn't there.
    (
        "DATA_BLOCK DB 10 STRUCT a : INT; END_STRUCT; BEGIN END_DATA_BLOCK\nORGANIZATION_BLOCK OB 1\nBEGIN\nOPN DB 10;\nL DBW 100;\nT QW 4;\nEND_ORGANIZATION_BLOCK\nORGANIZATION_BLOCK OB 121\nBEGIN\nL 1;\nT QB 9;\nEND_ORGANIZATION_BLOCK\n",
        "step 9\n",
        "@9 PQ 9 = 01\nEND 9 RUN\nDB 10 0 0000\n",
    ),
    (
        "DATA_BLOCK DB 10 STRUCT a : ARRAY [0..9] OF BYTE; END_STRUCT; BEGIN END_DATA_BLOCK\nORGANIZATION_BLOCK OB 1\nBEGIN\nOPN DB 10;\nL DBW 100;\nT MW 0;\nEND_ORGANIZATION_BLOCK\nORGANIZATION_BLOCK OB 121\nBEGIN\nL 1;\nT MB 9;\nEND_ORGANIZATION_BLOCK\n",
        "step 7\n",
        "END 7 RUN\nDB 10 0 00000000000000000000\n",
    ),
    # The mode is STARTUP from the start on, and RUN with the end of OB 100.
    ("ORGANIZATION_BLOCK OB 100\nBEGIN\nL 1;\nT MB 20;\nEND_ORGANIZATION_BLOCK\n", "step 3\n", "@3 MODE RUN\nEND 3 RUN\n"),
    ("ORGANIZATION_BLOCK OB 100\nBEGIN\nL 1;\nT MB 20;\nEND_ORGANIZATION_BLOCK\n", "step 2\n", "END 2 STARTUP\n"),
]

# One zone of the master control relay around an assignment and a set bit.
ONE_ZONE = "ORGANIZATION_BLOCK OB 1\nBEGIN\nMCRA;\nA I 0.0;\nMCR(;\nSET;\n= Q 4.0;\nS Q 4.1;\n)MCR;\nMCRD;\nEND_ORGANIZATION_BLOCK\n"

RELAY = [
    (ONE_ZONE, "step 11\n", "END 11 RUN\n"),
    (ONE_ZONE, "in 0 01\nstep 11\n", "@12 PQ 4 = 03\nEND 12 RUN\n"),
    # In lower case, and with blanks, a comment and line ends between the two tokens.
    (
        "ORGANIZATION_BLOCK OB 1\nBEGIN\nmcra;\na I 0.0;\nmcr (;\nset;\n= Q 4.0;\nS Q 4.1;\n) // the zone ends\nmcr;\nmcrd;\nEND_ORGANIZATION_BLOCK\n",
        "in 0 01\nstep 11\n",
        "@12 PQ 4 = 03\nEND 12 RUN\n",
    ),
    # T writes 0 in a zone that is off, and ACCU 1 stays.
    (
        "ORGANIZATION_BLOCK OB 1\nBEGIN\nL 5;\nT QB 5;\nMCRA;\nCLR;\nMCR(;\nT QB 5;\nT QB 6;\n)MCR;\nT QB 7;\nEND_ORGANIZATION_BLOCK\n",
        "step 12\n",
        "@12 PQ 7 = 05\nEND 12 RUN\n",
    ),
    # A zone that is off inside one that is on.
    (
        "ORGANIZATION_BLOCK OB 1\nBEGIN\nMCRA;\nSET;\nMCR(;\nCLR;\nMCR(;\nSET;\n= Q 4.0;\n)MCR;\nSET;\n= Q 4.1;\n)MCR;\nEND_ORGANIZATION_BLOCK\n",
        "step 14\n",
        "@14 PQ 4 = 02\nEND 14 RUN\n",
    ),
    # One that would be on inside one that is off: it is off as well.
    (
        "ORGANIZATION_BLOCK OB 1\nBEGIN\nMCRA;\nCLR;\nMCR(;\nSET;\nMCR(;\n= Q 4.0;\n)MCR;\n= Q 4.1;\n)MCR;\n= Q 4.2;\nEND_ORGANIZATION_BLOCK\n",
        "step 13\n",
        "@13 PQ 4 = 04\nEND 13 RUN\n",
    ),
    # Without MCRA a zone does nothing; MCRD and MCRA leave its value.
    (
        "ORGANIZATION_BLOCK OB 1\nBEGIN\nCLR;\nMCR(;\nSET;\n= Q 4.0;\nMCRA;\n= Q 4.1;\nMCRD;\n= Q 4.2;\n)MCR;\nEND_ORGANIZATION_BLOCK\n",
        "step 12\n",
        "@12 PQ 4 = 05\nEND 12 RUN\n",
    ),
    # A called block has a relay of its own, and the caller's is as it was.
    (
        "FUNCTION FC 1 : VOID\nBEGIN\nSET;\n= Q 4.0;\nEND_FUNCTION\nORGANIZATION_BLOCK OB 1\nBEGIN\nMCRA;\nCLR;\nMCR(;\nUC FC 1;\nSET;\n= Q 4.1;\n)MCR;\nEND_ORGANIZATION_BLOCK\n",
        "step 13\n",
        "@13 PQ 4 = 01\nEND 13 RUN\n",
    ),
    # An organization block that interrupts a zone has a relay of its own.
    (
        "ORGANIZATION_BLOCK OB 1\nBEGIN\nMCRA;\nCLR;\nMCR(;\nSET;\n= Q 4.0;\n)MCR;\nEND_ORGANIZATION_BLOCK\nORGANIZATION_BLOCK OB 40\nBEGIN\nSET;\n= Q 5.0;\nEND_ORGANIZATION_BLOCK\n",
        "step 4\narrive 40\nstep 8\n",
        "@13 PQ 5 = 01\nEND 13 RUN\n",
    ),
    # A jump inside a zone, and inside a bracket of it.
    (
        "ORGANIZATION_BLOCK OB 1\nBEGIN\nMCRA;\nSET;\nMCR(;\nJU on;\nR Q 4.0;\non: S Q 4.0;\nA(;\nJU in;\nNOP 0;\nin: SET;\n);\n= Q 4.1;\n)MCR;\nEND_ORGANIZATION_BLOCK\n",
        "step 14\n",
        "@14 PQ 4 = 03\nEND 14 RUN\n",
    ),
]

# A comment and a last line, 4,194,304 bytes together, the most of a history. The last line is read, too: its value has a digit that is none.
LAST_LINE = "in 0 0g\n"
MOST_BYTES = "/" * (4_194_304 - len(LAST_LINE) - 1) + "\n" + LAST_LINE

# What 10,000 reads of a byte of bit memory that is 0 are answered.
REPLIES = "".join(f"@{n} OP 2 VALUES 00\n" for n in range(1, 10_001)) + "END 10000 RUN\n"

# A statement that fails in each third step, the first time in the second one.
FAILING = "ORGANIZATION_BLOCK OB 1\nBEGIN\nx: L PIB 200;\nJU x;\nEND_ORGANIZATION_BLOCK\nORGANIZATION_BLOCK OB 122\nBEGIN\nEND_ORGANIZATION_BLOCK\n"

# Of the records of steps 2, 5, 8 and so on up to 302 the last hundred; code 16#42 is 66.
LAST_HUNDRED = "@305 OP 1 DIAG 100\n" + "".join(f"@305 DIAG {entry} 4 66\n" for entry in range(5, 305, 3)) + "END 305 RUN\n"

LONG_HISTORIES = [
    ("", MOST_BYTES, 4, "history refused: line 2 rule 1\n"),
    ("", "op 2 read MB7\n" * 10_000, 0, REPLIES),
    (FAILING, "step 304\nop 1 diag\n", 0, LAST_HUNDRED),
]

# Summaries of made programs, from a machine that knows nothing of this program; two of them twice, since the same number gives the same line.
SUMMARIES = [
    ("1", 0, "GEN 1 ENTRIES 200069 MODE RUN SUM 20431\n"),
    ("0001", 0, "GEN 1 ENTRIES 200069 MODE RUN SUM 20431\n"),
    ("3", 0, "GEN 3 ENTRIES 210650 MODE RUN SUM 18607\n"),
    ("10000", 0, "GEN 10000 ENTRIES 202039 MODE RUN SUM 15706\n"),
    ("10000", 0, "GEN 10000 ENTRIES 202039 MODE RUN SUM 15706\n"),
    ("0", 1, "words refused\n"),
    ("10001", 1, "words refused\n"),
    ("1x", 1, "words refused\n"),
    # Zeros in front.
    ("00010000", 0, "GEN 10000 ENTRIES 202039 MODE RUN SUM 15706\n"),
]

CASES = [
    *gone("runs and refusals", "go source history", RUNS),
    *run_both("data blocks", DATA_BLOCKS),
    *run_both("statements", STATEMENTS),
    *run_both("calls of blocks", CALLS),
    *run_both("organization blocks", ORGANIZATION_BLOCKS),
    *run_both("the master control relay", RELAY),
    *gone("long histories", "go source history", LONG_HISTORIES),
    *[told("summaries", ["gen", number], {}, status, text) for number, status, text in SUMMARIES],
]
