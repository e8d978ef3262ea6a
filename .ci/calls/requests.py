"""Requests of operators in whole runs, by `go` and by the image: a monitored block, variables of each area, each request in every mode, warm
restarts, and records of diagnostics."""
from calls.cases import run_both

# A monitored OB 1: the registers after each statement, and of the cycle point nothing.
MONITORED = [
    # 32,767 + 1 is a positive overflow: OV and OS, CC 0/1, so JM jumps.
    (
        "ORGANIZATION_BLOCK OB 1\nBEGIN\nL 32767;\nL 1;\n+I;\nJM x;\nSET;\nx: NOP 0;\nEND_ORGANIZATION_BLOCK\n",
        "op 1 monitor on OB 1\nstep 6\n",
        "@1 OP 1 DONE\n@3 MON OB 1 LINE 3 STW 0000 A1 00007FFF A2 00000000\n@4 MON OB 1 LINE 4 STW 0000 A1 00000001 A2 00007FFF\n@5 MON OB 1 LINE 5 STW 0070 A1 00008000 A2 00007FFF\n@6 MON OB 1 LINE 6 STW 0070 A1 00008000 A2 00007FFF\n@7 MON OB 1 LINE 8 STW 0070 A1 00008000 A2 00007FFF\nEND 7 RUN\n",
    ),
    # The true sum -65,536: OV and OS, CC 0/0, so JZ jumps.
    (
        "ORGANIZATION_BLOCK OB 1\nBEGIN\nL -32768;\nL -32768;\n+I;\nJZ x;\nSET;\nx: NOP 0;\nEND_ORGANIZATION_BLOCK\n",
        "op 1 monitor on OB 1\nstep 6\n",
        "@1 OP 1 DONE\n@3 MON OB 1 LINE 3 STW 0000 A1 00008000 A2 00000000\n@4 MON OB 1 LINE 4 STW 0000 A1 00008000 A2 00008000\n@5 MON OB 1 LINE 5 STW 0030 A1 00000000 A2 00008000\n@6 MON OB 1 LINE 6 STW 0030 A1 00000000 A2 00008000\n@7 MON OB 1 LINE 8 STW 0030 A1 00000000 A2 00008000\nEND 7 RUN\n",
    ),
    # 13 / 4 is 3, remainder 1; a division by 0 gives CC 1/1, so JUO jumps.
    (
        "ORGANIZATION_BLOCK OB 1\nBEGIN\nL 13;\nL 4;\n/I;\nL 0;\n/I;\nJUO x;\nSET;\nx: NOP 0;\nEND_ORGANIZATION_BLOCK\n",
        "op 1 monitor on OB 1\nstep 8\n",
        "@1 OP 1 DONE\n@3 MON OB 1 LINE 3 STW 0000 A1 0000000D A2 00000000\n@4 MON OB 1 LINE 4 STW 0000 A1 00000004 A2 0000000D\n@5 MON OB 1 LINE 5 STW 0080 A1 00010003 A2 0000000D\n@6 MON OB 1 LINE 6 STW 0080 A1 00000000 A2 00010003\n@7 MON OB 1 LINE 7 STW 00F0 A1 00000000 A2 00010003\n@8 MON OB 1 LINE 8 STW 00F0 A1 00000000 A2 00010003\n@9 MON OB 1 LINE 10 STW 00F0 A1 00000000 A2 00010003\nEND 9 RUN\n",
    ),
    # A statement that stops shows its own line; in STOP nothing is executed. The record stands first.
    (
        "ORGANIZATION_BLOCK OB 1\nBEGIN\nOPN DB 1;\nL DBW 8;\nEND_ORGANIZATION_BLOCK\nDATA_BLOCK DB 1 STRUCT a : WORD; END_STRUCT; BEGIN END_DATA_BLOCK\n",
        "op 2 monitor on OB 1\nstep 4\nop 2 monitor off\n",
        "@1 OP 2 DONE\n@3 MON OB 1 LINE 3 STW 0000 A1 00000000 A2 00000000\n@4 MON OB 1 LINE 4 STW 0000 A1 00000000 A2 00000000\n@4 MODE STOP 3 AT OB 1 LINE 4\n@6 OP 2 DONE\nEND 6 STOP 3\nDB 1 0 0000\n",
    ),
    # One block at a time, which must be loaded; after off none.
    (
        "ORGANIZATION_BLOCK OB 1\nBEGIN\nL 1;\nL 2;\nL 3;\nEND_ORGANIZATION_BLOCK\n",
        "step\nop 1 monitor on OB 1\nop 2 monitor on FC 7\nstep\nop 3 monitor off\nstep\n",
        "@2 OP 1 DONE\n@3 OP 2 NOSUCH 1\n@4 MON OB 1 LINE 3 STW 0000 A1 00000001 A2 00000000\n@5 OP 3 DONE\nEND 6 RUN\n",
    ),
]

CALLED = "FUNCTION FC 1 : VOID\nBEGIN\nL 9;\nEND_FUNCTION\nORGANIZATION_BLOCK OB 1\nBEGIN\nL 5;\nCALL FC 1;\nT MW 0;\nEND_ORGANIZATION_BLOCK\n"

FAILING = "ORGANIZATION_BLOCK OB 1\nBEGIN\nL 5;\nL PIB 200;\nT MW 0;\nEND_ORGANIZATION_BLOCK\nORGANIZATION_BLOCK OB 122\nBEGIN\nL 1;\nEND_ORGANIZATION_BLOCK\n"

# A monitored block that is interrupted, that is called, that calls, whose statement fails, and that stops.
WATCHED = [
    # OB 40 interrupts OB 1 behind its first statement: of OB 40 nothing is shown.
    (
        "ORGANIZATION_BLOCK OB 1\nBEGIN\nL 5;\nT MW 0;\nEND_ORGANIZATION_BLOCK\nORGANIZATION_BLOCK OB 40\nBEGIN\nL 7;\nT MB 4;\nEND_ORGANIZATION_BLOCK\n",
        "op 1 monitor on OB 1\nstep 2\narrive 40\nstep 4\n",
        "@1 OP 1 DONE\n@3 MON OB 1 LINE 3 STW 0000 A1 00000005 A2 00000000\n@8 MON OB 1 LINE 4 STW 0000 A1 00000005 A2 00000000\nEND 8 RUN\n",
    ),
    # A call is a statement of the caller, a return, at the line of the end, one of the called block; both
    # leave STA 1.
    (
        CALLED,
        "op 1 monitor on FC 1\nstep 6\n",
        "@1 OP 1 DONE\n@5 MON FC 1 LINE 3 STW 0004 A1 00000009 A2 00000005\n@6 MON FC 1 LINE 4 STW 0004 A1 00000009 A2 00000005\nEND 7 RUN\n",
    ),
    (
        CALLED,
        "op 1 monitor on OB 1\nstep 7\n",
        "@1 OP 1 DONE\n@3 MON OB 1 LINE 7 STW 0000 A1 00000005 A2 00000000\n@4 MON OB 1 LINE 8 STW 0004 A1 00000005 A2 00000000\n@7 MON OB 1 LINE 9 STW 0004 A1 00000009 A2 00000005\n@8 MON OB 1 LINE 10 STW 0004 A1 00000009 A2 00000005\nEND 8 RUN\n",
    ),
    # There is no peripheral byte 200. The statement leaves the registers as they were; OB 122 begins
    # with copies of them, and its own don't come back.
    (
        FAILING,
        "op 1 monitor on OB 1\nstep 6\n",
        "@1 OP 1 DONE\n@3 MON OB 1 LINE 3 STW 0000 A1 00000005 A2 00000000\n@4 MON OB 1 LINE 4 STW 0000 A1 00000005 A2 00000000\n@7 MON OB 1 LINE 5 STW 0000 A1 00000005 A2 00000000\nEND 7 RUN\n",
    ),
    (
        FAILING,
        "op 1 monitor on OB 122\nstep 6\n",
        "@1 OP 1 DONE\n@5 MON OB 122 LINE 9 STW 0004 A1 00000001 A2 00000005\n@6 MON OB 122 LINE 10 STW 0004 A1 00000001 A2 00000005\nEND 7 RUN\n",
    ),
    # Of one entry the monitored statement comes first, then the outputs, then the mode. SFC 46 sets BR.
    (
        "ORGANIZATION_BLOCK OB 1\nBEGIN\nL 5;\nT PQB 300;\nCALL SFC 46;\nEND_ORGANIZATION_BLOCK\n",
        "op 1 monitor on OB 1\nstep 4\nop 4 diag\n",
        "@1 OP 1 DONE\n@3 MON OB 1 LINE 3 STW 0000 A1 00000005 A2 00000000\n@4 MON OB 1 LINE 4 STW 0000 A1 00000005 A2 00000000\n@4 PQ 300 = 05\n@5 MON OB 1 LINE 5 STW 0104 A1 00000005 A2 00000000\n@5 PQ 300 = 00\n@5 MODE STOP 1 AT OB 1 LINE 5\n@6 OP 4 DIAG 1\n@6 DIAG 5 5 1\nEND 6 STOP 1\n",
    ),
]

BRANCHES = "ORGANIZATION_BLOCK OB 1\nBEGIN\nA M 0.0;\nA M 0.1;\nO;\nA M 0.2;\nA M 0.3;\n= M 1.0;\nEND_ORGANIZATION_BLOCK\n"

# Variables are read and written between two statements.
VARIABLES = [
    (BRANCHES, "op 1 write MB0 0E\nstep 7\nop 1 read MB1\n", "@1 OP 1 DONE\n@9 OP 1 VALUES 01\nEND 9 RUN\n"),
    # There is a byte 300, and no byte 2,048; the first variable that is absent is told, and none is read.
    (BRANCHES, "op 1 write MB0 0E\nstep 7\nop 1 read MB 300\n", "@1 OP 1 DONE\n@9 OP 1 VALUES 00\nEND 9 RUN\n"),
    (
        BRANCHES,
        "op 1 write MB0 0E\nstep 7\nop 1 read MB 2048\nop 4 read M1.0, MD 2046, QW 2, DB9.DBX0.1\nop 4 read M 1.0, QD 124, IW 2\n",
        "@1 OP 1 DONE\n@9 OP 1 NOSUCH 1\n@10 OP 4 NOSUCH 2\n@11 OP 4 VALUES 1 00000000 0000\nEND 11 RUN\n",
    ),
    # An interrupt between the two statements of OB 1.
    (
        "ORGANIZATION_BLOCK OB 1\nBEGIN\nL 5;\nT MW 12;\nEND_ORGANIZATION_BLOCK\nORGANIZATION_BLOCK OB 40\nBEGIN\nL 99;\nT MW 10;\nEND_ORGANIZATION_BLOCK\n",
        "step 2\narrive 40\nstep 2\nop 1 read MW10, MW12\nstep 2\nop 1 read MW10, MW12\n",
        "@6 OP 1 VALUES 0063 0000\n@9 OP 1 VALUES 0063 0005\nEND 9 RUN\n",
    ),
    # Interrupts are delayed until the second EN_AIRT; the third one finds nothing to take back.
    (
        "ORGANIZATION_BLOCK OB 1\nBEGIN\nCALL SFC 41 (RET_VAL := MW 20);\nCALL SFC 41 (RET_VAL := MW 22);\nCALL SFC 42 (RET_VAL := MW 24);\nCALL SFC 42 (RET_VAL := MW 26);\nCALL SFC 42 (RET_VAL := MW 28);\nEND_ORGANIZATION_BLOCK\nORGANIZATION_BLOCK OB 40\nBEGIN\nL 7;\nT MB 30;\nEND_ORGANIZATION_BLOCK\n",
        "step 3\narrive 40\nstep 2\nop 1 read MW24, MW26, MB30\nstep 4\nop 1 read MW20, MW22, MW28, MB30\n",
        "@7 OP 1 VALUES 0001 0000 00\n@12 OP 1 VALUES 0001 0002 8080 07\nEND 12 RUN\n",
    ),
    # A word past the end of the open data block, with OB 121; then OB 1 goes on behind it.
    (
        "DATA_BLOCK DB 10 STRUCT a : ARRAY [0..9] OF BYTE; END_STRUCT; BEGIN END_DATA_BLOCK\nORGANIZATION_BLOCK OB 1\nBEGIN\nOPN DB 10;\nL DBW 100;\nT MW 0;\nEND_ORGANIZATION_BLOCK\nORGANIZATION_BLOCK OB 121\nBEGIN\nL 1;\nT MB 9;\nEND_ORGANIZATION_BLOCK\n",
        "step 7\nop 1 read MB9, MW0\n",
        "@8 OP 1 VALUES 01 0000\nEND 8 RUN\nDB 10 0 00000000000000000000\n",
    ),
    # The block's output is copied to its actual by the statement that returns.
    (
        "FUNCTION_BLOCK FB 1\nVAR_INPUT a : INT; END_VAR\nVAR_OUTPUT b : INT; END_VAR\nBEGIN\nL #a; L 1; +I; T #b;\nEND_FUNCTION_BLOCK\nDATA_BLOCK DB 5 FB 1 BEGIN END_DATA_BLOCK\nORGANIZATION_BLOCK OB 1\nBEGIN\nCALL FB 1, DB 5 (a := MW 0, b := MW 2);\nEND_ORGANIZATION_BLOCK\n",
        "op 1 write MW0 0009\nstep 6\nop 1 read MW2\nstep 1\nop 1 read MW2\n",
        "@1 OP 1 DONE\n@8 OP 1 VALUES 0000\n@10 OP 1 VALUES 000A\nEND 10 RUN\nDB 5 0 0009000A\n",
    ),
    # Bits of Q, I and a data block: a cycle point hands Q on and reads I anew. A place past the end of the
    # block isn't there, nor is a block 0.
    (
        "DATA_BLOCK DB 10 STRUCT a : INT; b : INT; END_STRUCT; BEGIN END_DATA_BLOCK",
        "op 1 write Q0.7 1\nop 1 write I3.1 1\nop 1 write DB10.DBX1.3 1\nop 1 write DB10.DBX4.0 1\nop 1 read QB0, IB3, DB10.DBW0\nop 1 read DB0.DBB0\nop 1 read DB10.DBB3, DB10.DBB4, DB11.DBB0\nstep\nop 1 read QB0, IB3\n",
        "@1 OP 1 DONE\n@2 OP 1 DONE\n@3 OP 1 DONE\n@4 OP 1 NOSUCH 1\n@5 OP 1 VALUES 80 02 0008\n@6 OP 1 NOSUCH 1\n@7 OP 1 NOSUCH 2\n@8 PQ 0 = 80\n@9 OP 1 VALUES 80 00\nEND 9 RUN\nDB 10 0 00080000\n",
    ),
    # The eighth variable of eight.
    (
        "",
        "op 1 read MB0, MB1, MB2, MB3, MB4, MB5, MB6, MB2047\nop 1 read MB0, MB1, MB2, MB3, MB4, MB5, MB6, MB2048\n",
        "@1 OP 1 VALUES 00 00 00 00 00 00 00 00\n@2 OP 1 NOSUCH 8\nEND 2 RUN\n",
    ),
]

# STOP, warm restart and the last records of diagnostics.
CONTROL = [
    # OB 40 isn't loaded, nor is OB 85: the output falls, and can still be read.
    (
        "ORGANIZATION_BLOCK OB 1\nBEGIN\nA I 0.0;\nAN I 0.1;\n= Q 4.0;\nEND_ORGANIZATION_BLOCK\n",
        "in 0 01\nstep 6\narrive 40\nop 1 read QB4\n",
        "@7 PQ 4 = 01\n@8 PQ 4 = 00\n@8 MODE STOP 8 AT OB 1 LINE 3\n@9 OP 1 VALUES 01\nEND 9 STOP 8\n",
    ),
    # OB 38 is due after 10 ms and, still pending, after 20: a time error.
    (
        "ORGANIZATION_BLOCK OB 38\nBEGIN\nNOP 0;\nEND_ORGANIZATION_BLOCK\nORGANIZATION_BLOCK OB 80\nBEGIN\nNOP 0;\nEND_ORGANIZATION_BLOCK\n",
        "tick 20\nop 1 diag\n",
        "@2 OP 1 DIAG 1\n@2 DIAG 1 1 38\nEND 2 RUN\n",
    ),
    # A restart keeps MB 3 and clears MB 20; in RUN it is refused, and a second STOP changes nothing.
    (
        "ORGANIZATION_BLOCK OB 100\nBEGIN\nL 1;\nT MB 20;\nEND_ORGANIZATION_BLOCK\n",
        "step 3\nop 1 restart\nop 1 write MB3 AA\nop 1 stop\nop 1 restart\nop 2 read MB3, MB20\n",
        "@3 MODE RUN\n@4 OP 1 NOTSTOPPED\n@5 OP 1 DONE\n@6 MODE STOP 2 AT NONE\n@6 OP 1 DONE\n@7 MODE STARTUP\n@7 OP 1 DONE\n@8 OP 2 VALUES AA 00\nEND 8 STARTUP\n",
    ),
    # A stop is recorded once, at the statement that would be next; a restart is recorded too.
    (
        "ORGANIZATION_BLOCK OB 1\nBEGIN\nSET;\n= Q 0.0;\nEND_ORGANIZATION_BLOCK\n",
        "step 2\nop 1 stop\nop 2 stop\nop 3 diag\nop 3 restart\nop 4 diag\n",
        "@3 MODE STOP 2 AT OB 1 LINE 4\n@3 OP 1 DONE\n@4 OP 2 DONE\n@5 OP 3 DIAG 1\n@5 DIAG 3 5 2\n@6 MODE RUN\n@6 OP 3 DONE\n@7 OP 4 DIAG 2\n@7 DIAG 3 5 2\n@7 DIAG 6 6 0\nEND 7 RUN\n",
    ),
    # Of one entry the outputs come first, then the mode, then the reply.
    (
        "ORGANIZATION_BLOCK OB 1\nBEGIN\nL 5;\nT PQB 300;\nEND_ORGANIZATION_BLOCK\n",
        "step 3\nop 2 stop\n",
        "@3 PQ 300 = 05\n@4 PQ 300 = 00\n@4 MODE STOP 2 AT OB 1 LINE 5\n@4 OP 2 DONE\nEND 4 STOP 2\n",
    ),
    # Without OB 100 a restart begins RUN; it clears MB 16 and the process images, and keeps the
    # peripheral input, which a cycle point reads. What the operator did in STOP counts.
    (
        "",
        "op 1 stop\nop 1 write MB15 11\nop 1 write MB16 22\nop 1 write IB0 33\nop 1 write QB0 44\nin 5 77\nop 1 restart\nop 1 read MB15, MB16, IB0, QB0\nstep\nop 1 read IB0, IB5\n",
        "@1 MODE STOP 2 AT NONE\n@1 OP 1 DONE\n@2 OP 1 DONE\n@3 OP 1 DONE\n@4 OP 1 DONE\n@5 OP 1 DONE\n@7 MODE RUN\n@7 OP 1 DONE\n@8 OP 1 VALUES 11 00 00 00\n@10 OP 1 VALUES 00 77\nEND 10 RUN\n",
    ),
    # Each request but a restart is served in STARTUP and in STOP.
    (
        "ORGANIZATION_BLOCK OB 100\nBEGIN\nx: JU x;\nEND_ORGANIZATION_BLOCK\n",
        "op 1 write MB0 1F\nop 2 read MB0\nop 3 restart\nop 4 monitor on OB 100\nstep\nop 4 monitor off\nop 1 diag\nop 1 stop\nop 1 write MB1 2F\nop 2 read MW0\nop 3 monitor on OB 1\nop 3 monitor on OB 100\nop 3 monitor off\nop 1 stop\nop 1 diag\n",
        "@1 OP 1 DONE\n@2 OP 2 VALUES 1F\n@3 OP 3 NOTSTOPPED\n@4 OP 4 DONE\n@5 MON OB 100 LINE 3 STW 0000 A1 00000000 A2 00000000\n@6 OP 4 DONE\n@7 OP 1 DIAG 0\n@8 MODE STOP 2 AT OB 100 LINE 3\n@8 OP 1 DONE\n@9 OP 1 DONE\n@10 OP 2 VALUES 1F2F\n@11 OP 3 NOSUCH 1\n@12 OP 3 DONE\n@13 OP 3 DONE\n@14 OP 1 DONE\n@15 OP 1 DIAG 1\n@15 DIAG 8 5 2\nEND 15 STOP 2\n",
    ),
]

CASES = [
    *run_both("monitored statements", MONITORED),
    *run_both("watched blocks", WATCHED),
    *run_both("variables of requests", VARIABLES),
    *run_both("modes by requests", CONTROL),
]
