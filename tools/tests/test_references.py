"""tools/references: operands, lines and accesses of sources, by docs/LANGUAGE.md."""
from tests.calling import ToolTest

SOURCE = """\
FUNCTION_BLOCK "Motor"
VAR_INPUT
  On : BOOL;
END_VAR
BEGIN
  A #On;
  FP M 0.1;
  L S5T#2S;
  SD T 5;
  L DBW 2;
END_FUNCTION_BLOCK
DATA_BLOCK DB 11
"Motor"
BEGIN
END_DATA_BLOCK
ORGANIZATION_BLOCK OB 1
BEGIN
NETWORK
x:  A "start"; = Q4.0;
  L "Motor data".On; T DB11.DBW 4;
  L T5; T "Motor data".ON;
  CALL "Motor", DB 11 (On := I 0.0);
  CALL SFC 64 (RET_VAL := MD 20);
  A M [MD 8];
  L W [AR1, P#2.0]; L P#M 7.0;
  OPN DI 12;
  JU x;
END_ORGANIZATION_BLOCK
"""
SYMBOLS = '"Start","I 0.0","BOOL",""\n"Motor","FB 1","FB 1",""\n"Motor data","DB 11","FB 1",""\n"Time","T  5","TIMER",""\n"Lamp","Q 4.1","BOOL",""\n'
WITHOUT = """\
addresses without a symbol: 5
  Q 4.0
  M 0.1
  MD 8
  MD 20
  DB 12
"""
OPERANDS = """\
symbols never used: 1
  "Lamp" Q 4.1
I 0.0 "Start"
  line 19, OB 1: read
  line 22, OB 1: passed
Q 4.0
  line 19, OB 1: written
M 0.1
  line 7, FB 1 "Motor": read and written
MD 8
  line 24, OB 1: read
MD 20
  line 23, OB 1: passed
T 5 "Time"
  line 9, FB 1 "Motor": written
  line 21, OB 1: read
DB 11 "Motor data"
  line 12, DB 11 "Motor data": begins here
  line 22, OB 1: its instance
DB 11.On
  line 20, OB 1: read
  line 21, OB 1: written
DB 11.DBW 4
  line 20, OB 1: written
DB 12
  line 26, OB 1: opened
FB 1 "Motor"
  line 1, FB 1 "Motor": begins here
  line 13, DB 11 "Motor data": declared
  line 22, OB 1: called
SFC 64
  line 23, OB 1: called
OB 1
  line 16, OB 1: begins here
W [AR1, P#2.0]
  line 25, OB 1: read
DBW 2
  line 10, FB 1 "Motor": read
M [MD 8]
  line 24, OB 1: read
"""


class References(ToolTest):
    def test_a_source(self):
        self.write("source", SOURCE)
        self.write("symbols", SYMBOLS)
        self.expect(0, WITHOUT + OPERANDS, "references", "source", "--symbols", "symbols")

    def test_without_symbols(self):
        self.write("source", 'ORGANIZATION_BLOCK OB 1\nBEGIN\nA "Go";\n= Q 4.0;\nEND_ORGANIZATION_BLOCK\n')
        lines = ["addresses without a symbol: 1", "  Q 4.0", "symbols never used: none", "Q 4.0", "  line 4, OB 1: written"]
        lines += ["OB 1", "  line 1, OB 1: begins here", '"Go"', "  line 3, OB 1: read"]
        self.expect(0, "\n".join(lines) + "\n", "references", "source")

    def test_any_text(self):
        self.write("source", "A ; = \nCALL (,,);\nBEGIN A [ ; CALL FC 1 (a := , b); L\n")
        self.assertEqual(self.call("references", "source").stderr, "")
        self.expect_refused("nowhere can't be read", "references", "nowhere")
        self.write("symbols", "a,b\n")
        self.expect_refused("symbols, line 1: a symbol has four fields", "references", "source", "--symbols", "symbols")
