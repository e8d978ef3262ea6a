"""tools/refusals over the program. Lines and rules are those of docs/REFUSALS.md."""
import re

from tests.calling import ToolTest

FUNCTION = """\
FUNCTION FC 1 : VOID
VAR_INPUT
  a : INT;
  A : INT;
END_VAR
BEGIN
  L #spede;
  A MW 2;
x: A I 0.8;
  JU x;
  JU nope;
  CALL FC 2 (p := 5,
    q := 6);
END_FUNCTION
"""
DATA = """\
DATA_BLOCK DB 5
STRUCT
  c : INT := 40000;
  d : ARRAY [5..1] OF INT;
END_STRUCT
BEGIN
  c := 70;
  d[1] := 7;
END_DATA_BLOCK
"""
TOKENS = """\
ORGANIZATION_BLOCK OB 1
BEGIN
  A "Motor;
  L W#16#12G;
  A I 0.0 $
  ;
  A I 0.0; A I 0.9; A I 1.0;
END_ORGANIZATION_BLOCK
"""
BLOCKS = """\
ORGANIZATION_BLOCK OB 2
BEGIN
L nix;
END_ORGANIZATION_BLOCK
FUNCTION FC 1
BEGIN
L nix;
END_FUNCTION
FUNCTION FC 2 : VOID
BEGIN
CALL FC 1;
END_FUNCTION
FUNCTION FC 2 : VOID
BEGIN
L nix;
END_FUNCTION
"""
ZONES = """\
ORGANIZATION_BLOCK OB 1
BEGIN
MCR(;
)MCR;
)MCR;
JU x;
MCR(;
x: SET;
END_ORGANIZATION_BLOCK
"""


class Refusals(ToolTest):
    def found(self, source, *symbols):
        """File, line, rule and cause of each refusal."""
        self.write("source", source)
        answer = self.call("refusals", "source", *symbols)
        self.assertEqual(answer.stderr, "")
        told = re.findall(r"^(\w+):(\d+): rule (\d+): .*?(?: \(perhaps only since line (\d+) was left out\))?\n    ", answer.stdout, re.MULTILINE)
        self.assertEqual(answer.returncode, 1 if told else 0)
        return [(name, int(line), int(rule), int(after or 0)) for name, line, rule, after in told]

    def lines(self, source):
        return [(line, rule, after) for _, line, rule, after in self.found(source)]

    def test_a_source_that_is_accepted(self):
        self.write("source", "")
        self.expect(0, "OK\n", "refusals", "source")

    def test_the_line_and_the_rule_are_shown(self):
        self.write("source", TOKENS.replace('  A "Motor;\n  L W#16#12G;\n  A I 0.0 $\n', ""))
        self.expect(1, "source:4: rule 10: a clause isn't in the grammar\n    A I 0.0; A I 0.9; A I 1.0;\n", "refusals", "source")

    def test_statements(self):
        self.assertEqual(self.lines(FUNCTION), [(4, 21, 0), (7, 20, 0), (8, 24, 0), (9, 10, 0), (11, 26, 0), (12, 23, 0)])

    def test_zones(self):
        self.assertEqual(self.lines(ZONES), [(5, 47, 0), (6, 33, 0), (7, 48, 0)])

    def test_declarations(self):
        self.assertEqual(self.lines(DATA), [(3, 41, 0), (4, 42, 0), (8, 20, 4)])

    def test_tokens(self):
        self.assertEqual(self.lines(TOKENS), [(3, 2, 0), (4, 3, 0), (5, 1, 0), (7, 10, 0)])

    def test_blocks(self):
        self.assertEqual(self.lines(BLOCKS), [(1, 44, 0), (3, 20, 0), (5, 10, 0), (11, 23, 5), (13, 22, 0), (15, 20, 0)])

    def test_an_end_inside_a_block(self):
        for open_source in ("FUNCTION FC 1 : VOID\nBEGIN\nL nix;\n", "FUNCTION FC 1 : VOID BEGIN L nix;"):
            last = open_source.rstrip().count("\n") + 1
            self.assertEqual(self.lines(open_source), [(last, 13, 0), (last, 20, 0)])
        self.assertEqual(self.lines("FUNCTION FC 1 : VOID\nVAR_INPUT\na : INT;\n"), [(3, 13, 0)])

    def test_a_block_that_lost_its_frame_is_left_out(self):
        source = DATA.replace("STRUCT\n  c : INT := 40000;", "STRUKT\n  c : INT;") + TOKENS.replace("  A \"Motor;\n  L W#16#12G;\n  A I 0.0 $\n", "")
        self.assertEqual(self.lines(source), [(2, 10, 0), (4, 11, 2), (13, 10, 0)])

    def test_what_stands_outside_of_blocks(self):
        self.assertEqual(self.lines("SET;\nFUNCTION FC 1 : VOID\nBEGIN\nL nix;\nEND_FUNCTION\nCLR;\n"), [(1, 11, 0), (4, 20, 0), (6, 11, 0)])

    def test_an_attribute_without_end(self):
        self.assertEqual(self.lines("FUNCTION FC 1 : VOID\n{ open\nBEGIN\nL nix;\nEND_FUNCTION\n"), [(2, 2, 0), (4, 20, 0)])

    def test_symbols(self):
        self.write("symbols", "Go,I 0.8,BOOL,\nStop,I 0.1,BOOL\nLamp,Q 4.0,BOOL,\nLAMP,Q 4.1,BOOL,\n")
        source = 'ORGANIZATION_BLOCK OB 1\nBEGIN\nA "Go";\nA "Halt";\n= "Lamp";\nEND_ORGANIZATION_BLOCK\n'
        expected = [("symbols", 1, 15, 0), ("symbols", 2, 14, 0), ("symbols", 4, 16, 0), ("source", 3, 20, 1), ("source", 4, 20, 0)]
        self.assertEqual(self.found(source, "symbols"), expected)
        self.assertEqual(self.found(source, "--symbols", "symbols"), expected)
        self.expect_refused("symbols are named twice", "refusals", "source", "symbols", "--symbols", "symbols")

    def test_windows_line_ends_and_code_page(self):
        source = TOKENS.replace("\n", "\r\n").encode() + b"// F\xf6rderband\r\n"
        self.assertEqual(self.lines(source), [(3, 2, 0), (4, 3, 0), (5, 1, 0), (7, 10, 0)])

    def test_most(self):
        self.write("source", FUNCTION)
        answer = self.call("refusals", "source", "--most", "2")
        self.assertEqual(answer.stdout.count(": rule "), 2)
        self.expect_refused("a number from 1 on", "refusals", "source", "--most", "0")
        self.assertTrue(answer.stdout.endswith("--most 2 ends here; there may be more\n"))

    def test_what_cannot_be_checked(self):
        self.expect_refused("nowhere can't be read", "refusals", "nowhere")
        self.write("long", b" " * 1048577)
        self.expect_refused("too long: source", "refusals", "long")
