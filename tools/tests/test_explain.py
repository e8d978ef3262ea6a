"""tools/explain: what it says of each status. The sentences are those of docs/REFUSALS.md and docs/FORMATS.md."""
from texts import documents
from tests.calling import ToolTest


class Explanations(ToolTest):
    def explained(self, status, answer, *words):
        answer = self.call("explain", str(status), answer, *words)
        self.assertEqual((answer.returncode, answer.stderr), (0, ""))
        return answer.stdout

    def expect_parts(self, parts, status, answer, *words):
        told = self.explained(status, answer, *words)
        for part in parts:
            self.assertIn(part, told)

    def test_a_source(self):
        self.write("plant.awl", b'ORGANIZATION_BLOCK OB 1\r\nBEGIN\r\n  A "F\xf6rderer";\r\nEND_ORGANIZATION_BLOCK\r\n')
        told = self.explained(2, "source refused: line 3 rule 26", "check", "plant.awl")
        self.assertEqual(
            told,
            's7: plant.awl, line 3:\n          A "Förderer";\n    rule 26, broken where: an unknown label\n'
            '    example: `JU abcd;` with no `abcd:`\n    docs/REFUSALS.md, "Layout, names and statements"\n',
        )

    def test_symbols(self):
        self.write("names", "a,M 0.0,BOOL,\na,M 0.1\n")
        for words in (["go", "src", "hist", "--symbols", "names"], ["go", "--symbols=names", "src", "hist"]):
            parts = ["s7: names, line 2:\n        a,M 0.1\n    rule 14, broken where: a line that isn't empty is not one record", '"Rules of a symbols file"']
            self.expect_parts(parts, 2, "symbols refused: line 2 rule 14", *words)

    def test_a_line_that_is_not_there(self):
        self.write("source", "")
        self.expect_parts(["s7: source, line 7:\n    rule 10,"], 2, "source refused: line 7 rule 10", "check", "source")
        self.expect_parts(["s7: nowhere, line 7\n    rule 10,"], 2, "source refused: line 7 rule 10", "check", "nowhere")

    def test_what_is_wrong_in_a_history(self):
        for line, rule, text, part in (
            (3, 2, "// ok\nstep\nin 0 1\n", "hist, line 3: the value of an input byte is two hexadecimal digits\n        in 0 1\n"),
            (1, 2, "step 0\n", "hist, line 1: a number of steps is 1 to 1,000,000\n        step 0\n"),
            (1, 2, "tick 60001", "hist, line 1: a tick is 1 to 60,000 milliseconds\n        tick 60001\n"),
            (2, 1, "step\n  // x\n", "hist, line 2: a line is `step`"),
            (2, 1, "step\n \n", "hist, line 2: a line is `step`"),
            (1, 2, "arrive 35\n", "hist, line 1: an interrupt arrives for OB 10 to 17 or 40 to 47\n        arrive 35\n"),
            (1, 2, "arrive 40 ABC\n", "hist, line 1: the value of an arrival is eight hexadecimal digits\n"),
            (1, 2, "in 128 00\n", "hist, line 1: an input byte is 0 to 127 or 256 to 767\n        in 128 00\n"),
            (2, 6, "step 600000\nstep 400001\n", "hist, line 2: with this line there are more than 1,000,000 steps\n        step 400001\n"),
            (1, 5, "op 5 diag\n", "hist, line 1: an operator is 1 to 4\n        op 5 diag\n"),
            (1, 1, "op 1 reed MB0\n", "hist, line 1: a request is one of read, write"),
            (2, 3, "step\nop 1 read \"nix\"\n", "hist, line 2:\n        op 1 read \"nix\"\n"),
        ):
            self.write("hist", text)
            self.expect_parts([part, f"    rule {rule}, broken where: "], 4, f"history refused: line {line} rule {rule}", "go", "src", "hist")

    def test_what_is_wrong_in_stimuli_and_scripts(self):
        self.write("stim", "tick 7\ntick 0\nstep\n")
        self.write("one", "diag\n")
        self.write("two", "stop\nop 2 stop\n")
        words = ["live", "img", "stim", "one", "two", "--steps", "5"]
        parts = ["s7: stim, line 2: a tick is 1 to 60,000 milliseconds\n        tick 0\n    rule 2, broken where: a number", '"Rules of histories, stimuli and scripts"']
        self.expect_parts(parts, 4, "stimuli refused: line 2 rule 2", *words)
        self.expect_parts(["s7: stim, line 3:\n        step\n    rule 4, broken where: "], 4, "stimuli refused: line 3 rule 4", *words)
        self.expect_parts(["s7: two, line 2:\n        op 2 stop\n    rule 4, broken where: "], 4, "script 2 refused: line 2 rule 4", *words)

    def test_an_image(self):
        for code, part in ((1, "doesn't begin with `S7FB`"), (7, "an operand that isn't allowed"), (10, "bytes behind the total length")):
            parts = [f"s7: prog.img, byte 80:\n    fault {code}: ", part, 'docs/FORMATS.md, "Faults of an image"']
            self.expect_parts(parts, 3, f"image refused: offset 80 code {code}", "run", "prog.img", "hist")
            self.expect_parts(parts, 3, f"image refused: offset 80 code {code}", "live", "--steps", "5", "prog.img", "stim", "one")

    def test_a_file_that_cannot_be_read(self):
        self.write("src", "")
        self.expect_parts(["the history nowhere can't be read: there is no such file"], 5, "read fault", "go", "src", "nowhere")
        self.expect_parts(["the symbols nowhere can't be read"], 5, "read fault", "go", "src", "nothing", "--symbols", "nowhere")
        self.expect_parts(["the source . can't be read: Is a directory"], 5, "read fault", "check", ".")
        self.expect_parts(["the source /dev/fd/0 can't be read: it is a pipe"], 5, "read fault", "check", "/dev/fd/0")
        self.expect_parts(["the image nowhere can't be read"], 5, "read fault", "run", "nowhere", "src")
        self.expect_parts(["the script 2 nowhere can't be read"], 5, "read fault", "live", "src", "src", "src", "nowhere", "--steps=1")
        # a file that is written is none that is read
        self.expect_parts(["the symbols nowhere can't be read"], 5, "read fault", "compile", "src", "nothing", "--symbols", "nowhere")

    def test_a_file_that_is_too_long(self):
        self.write("src", b" " * 1048577)
        self.expect_parts(["s7: src has 1,048,577 bytes, and its limit (source) is 1,048,576\n"], 8, "too long: source", "check", "src")
        self.write("hist", b"\n" * 4194305)
        self.expect_parts(["s7: hist has 4,194,305 bytes, and its limit (history) is 4,194,304\n"], 8, "too long: history", "go", "a", "hist")
        self.expect_parts(["s7: src has 1,048,577 bytes, and its limit (script 3) is 1,048,576\n"], 8, "too long: script 3", "live", "i", "s", "a", "b", "src", "--steps", "1")
        self.write("image", b"\n" * 8388609)
        self.expect_parts(["s7: the translation of src would have more than 1,048,576 bytes\n"], 8, "too long: result", "english", "src", "out")
        self.expect_parts(["s7: a text of the listing of image would have more than 1,048,576 bytes\n"], 8, "too long: list", "list", "image", "src", "sym")
        self.expect_parts(["s7: image has 8,388,609 bytes, and its limit (image) is 8,388,608\n"], 8, "too long: image", "run", "image", "hist")

    def test_words(self):
        self.expect_parts(["      s7 go SRC HIST "], 1, "words refused", "go", "a")
        self.assertNotIn("s7 check", self.explained(1, "words refused", "go", "a"))
        self.expect_parts(["no command is named", "s7 go SRC HIST", "s7 check SRC", "s7 --help"], 1, "words refused")
        self.expect_parts(["there is no command fly", "s7 check SRC", "s7 live IMG STIM OPS.. --steps N"], 1, "words refused", "fly", "a")
        self.assertEqual(
            self.explained(1, "words refused", "gen", "0"),
            "s7: the call is written so, with options as ./s7 --help tells them\n"
            "      s7 gen NUMBER       run the program and the history that are made of a number\n"
            "                          from 1 to 10,000, write a line that sums up the run\n",
        )

    def test_what_needs_no_explanation(self):
        for status in (0, 6, 7):
            self.assertEqual(self.explained(status, "", "go", "a", "b"), "")

    def test_each_rule_of_the_help_has_its_sentences(self):
        numbers = [number for number in range(100) if documents.rule(number)]
        self.assertEqual(len(numbers), 47)
        self.assertEqual([number for number in numbers if documents.short_rule(number).startswith("docs/")], [])
        for kind in ("history", "stimuli", "vars", "script 4"):
            self.assertEqual([number for number in range(100) if documents.rule(number, kind)], list(range(1, 8)))
        for number in numbers:
            self.assertIn(f"rule {number}, broken where: ", self.explained(2, f"source refused: line 1 rule {number}", "check", "nowhere"))
        self.assertEqual([code for code in range(100) if documents.fault(code)], list(range(1, 11)))
        limits = {"source": 1048576, "result": 1048576, "list": 1048576, "symbols": 1048576, "image": 8388608, "history": 4194304, "stimuli": 4194304, "vars": 1048576, "script": 1048576, "certificate": 1048576}
        self.assertEqual(documents.limits(), limits)
