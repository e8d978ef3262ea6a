"""tools/history: what each line of a person stands for, by docs/FORMATS.md, "Histories"."""
from tests.calling import ToolTest

SYMBOLS = '"Start","I 0.0","BOOL",""\n"Speed","PIW 256","INT",""\n"Lamp // left","I 7.7","BOOL",""\n"Motor","Q 4.0","BOOL",""\n'


class Histories(ToolTest):
    def entries(self, *lines):
        """The entries of the history that these lines stand for, without comments."""
        self.write("symbols", SYMBOLS)
        answer = self.call("history", "-", "--symbols", "symbols", given="".join(line + "\n" for line in lines))
        self.assertEqual((answer.returncode, answer.stderr), (0, ""))
        return [line for line in answer.stdout.splitlines() if not line.startswith("//")]

    def test_bits_of_a_byte_stay(self):
        self.assertEqual(self.entries("I 0.0 1", "I0.2 TRUE", "I 0.0 0", "I 1.7 1"), ["in 0 01", "in 0 05", "in 0 04", "in 1 80"])

    def test_numbers_are_big_endian(self):
        self.assertEqual(self.entries("IB 5 255", "IW 2 16#0007"), ["in 5 FF", "in 2 00", "in 3 07"])
        self.assertEqual(self.entries("PIW 256 -2", "I 0.0 1"), ["in 256 FF", "in 257 FE", "in 0 01"])
        self.assertEqual(self.entries("ID 4 DW#16#0102_0304"), ["in 4 01", "in 5 02", "in 6 03", "in 7 04"])
        self.assertEqual(self.entries("IW 0 2#1_0000_0001"), ["in 0 01", "in 1 01"])

    def test_symbols_are_found_without_case(self):
        self.assertEqual(self.entries('"START" 1', '"Speed" 1500', '"Lamp // left" 1'), ["in 0 01", "in 256 05", "in 257 DC", "in 7 80"])

    def test_cycles_are_steps(self):
        self.assertEqual(self.entries("cycle 20", "cycles 3", "cycles", "Cycle 7", "CYCLES 2"), ["step 60", "step 20", "step 14"])

    def test_a_wait_is_ticks_with_cycles_around(self):
        self.assertEqual(
            self.entries("cycle 20", "wait 250ms"),
            ["step 20", "tick 100", "step 20", "tick 100", "step 20", "tick 50", "step 20"],
        )

    def test_ticks_end_at_multiples_of_the_longest(self):
        self.assertEqual(
            self.entries("cycle 9", "wait 50 ms", "wait 0.1s"),
            ["step 9", "tick 50", "step 9", "tick 50", "step 9", "tick 50", "step 9"],
        )
        self.assertEqual(self.entries("cycle 9", "ticks 10ms", "wait 12ms"), ["step 9", "tick 10", "step 9", "tick 2", "step 9"])

    def test_a_change_before_a_wait_is_seen_at_once(self):
        self.assertEqual(
            self.entries("cycle 9", "wait 10ms", "I 0.0 1", "wait 10ms"),
            ["step 9", "tick 10", "step 9", "in 0 01", "step 9", "tick 10", "step 9"],
        )

    def test_times(self):
        for time, ticks in (("1s", 10), ("1.5s", 15), ("1m", 600), ("1m 30s", 900), ("2s500ms", 25)):
            lines = self.entries("cycle 1", f"wait {time}")
            self.assertEqual(lines, ["step 1"] + ["tick 100", "step 1"] * ticks, time)

    def test_interrupts(self):
        self.assertEqual(self.entries("OB 40", "OB47 16#ABCD", "OB 10"), ["arrive 40", "arrive 47 0000ABCD", "arrive 10"])

    def test_lines_of_a_history_stand_for_themselves(self):
        self.assertEqual(self.entries("in 0 03", "I 0.0 0", "step 4", "tick 7", "arrive 40", "op 1 read MW 2"), ["in 0 03", "in 0 02", "step 4", "tick 7", "arrive 40", "op 1 read MW 2"])

    def test_each_line_is_kept_as_a_comment(self):
        self.write("symbols", SYMBOLS)
        self.write("steps", '// the plant is at rest\r\n\r\n"Lamp // left" 1 // on\r\ncycle 5\r\ncycles')
        self.expect(
            0, '// the plant is at rest\n// "Lamp // left" 1 // on\nin 7 80\n// cycle 5\n// cycles\nstep 5\n',
            "history", "steps", "--symbols", "symbols",
        )

    def test_cycles_are_measured(self):
        # the cycle point, three statements and the end of OB 1; then a call with two statements and an end more
        self.write("source", "ORGANIZATION_BLOCK OB 1\nBEGIN\nA I 0.0;\nAN I 0.1;\n= Q 4.0;\nEND_ORGANIZATION_BLOCK\n")
        self.write("steps", "I 0.0 1\nwait 100ms\n")
        told = "// cycle {}: the longest of 4 cycles of source had {} steps\n// I 0.0 1\nin 0 01\n// wait 100ms\nstep {}\ntick 100\nstep {}\n"
        self.expect(0, told.format(10, 5, 10, 10), "history", "steps", "--source", "source")
        function = "FUNCTION FC 1 : VOID\nBEGIN\nNOP 0;\nNOP 1;\nEND_FUNCTION\n"
        self.write("source", self.read("source").replace("= Q", "UC FC 1;\n= Q") + function)
        self.expect(0, told.format(18, 9, 18, 18), "history", "steps", "--source", "source")
        # with interrupts there is room for each statement once more: eight of them
        self.write("source", self.read("source") + "ORGANIZATION_BLOCK OB 40\nBEGIN\nNOP 0;\nNOP 0;\nEND_ORGANIZATION_BLOCK\n")
        self.expect(0, told.format(26, 9, 26, 26), "history", "steps", "--source", "source")

    def test_a_cycle_that_is_too_small(self):
        self.write("source", "ORGANIZATION_BLOCK OB 1\nBEGIN\nA I 0.0;\nAN I 0.1;\n= Q 4.0;\nEND_ORGANIZATION_BLOCK\n")
        self.write("steps", "cycle 9\nwait 100ms\n")
        said = "steps, line 2: the `cycle` above this line is too small: a cycle has 5 steps here, so say `cycle 10`"
        self.expect_refused(said, "history", "steps", "--source", "source")
        self.write("steps", "cycle 20\ncycles 1\n")
        answer = self.call("history", "steps", "--source", "source")
        self.assertTrue(answer.stdout.endswith("// cycle 20\n// cycles 1\nstep 20\n"), answer.stdout)
        self.write("steps", "I 0.0 1\n")
        self.expect_refused("source ends no cycle along steps", "history", "steps", "--source", "source")
        self.write("steps", "step 20\n")
        self.expect_refused("line 1: whole cycles are counted here, so `step 20` says nothing", "history", "steps", "--source", "source")
        self.write("wrong", "nothing\n")
        self.write("steps", "wait 1s\n")
        self.assertIn("wrong: source refused: line 1", self.call("history", "steps", "--source", "wrong").stderr)

    def test_refusals(self):
        self.write("symbols", SYMBOLS)
        for lines, said in (
            ("I 0.0 1\n\nI 0.8 1\n", "line 3: I 0.8 is neither"),
            ('"Sart" 1\n', 'line 1: "Sart" is neither'),
            ('"Motor" 1\n', 'Q 4.0 "Motor" is an output'),
            ("I 0.0 2\n", "2 is no value of I 0.0: a bit is 0 or 1"),
            ('"Start" on\n', "on is no value of I 0.0: a bit is 0 or 1"),
            ("E 0.0 1\n", "E is a German address, the English one begins with I"),
            ("PEW 256 1\n", "E is a German address, the English one begins with PI"),
            ("A 4.0 1\n", "A is a German address, the English one begins with Q"),
            ("M 0.0 1\n", "only inputs come from outside"),
            ("I 0.9 1\n", "nor a symbol of one: bits are 0 to 7"),
            ("I 128.0 1\n", "the bytes are 0 to 127"),
            ("Start 1\n", 'symbols stand in quotes: "Start" 1'),
            ("Lamp // left 1\n", "this line says nothing that is known: Lamp"),
            ("Start button TRUE\n", 'symbols stand in quotes: "Start button" TRUE'),
            ("IB 0 256\n", "256 doesn't fit into IB 0"),
            ("IW 0 -32769\n", "-32769 doesn't fit into IW 0"),
            ("IW 127 0\n", "IW 127 is neither"),
            ("PIB 128 0\n", "PIB 128 is neither"),
            ("IB 0 on\n", "on is no value"),
            ("wait 1s\n", "a line as `cycle 5000` above"),
            ("cycle 0\n", "a number from 1 to 1,000,000"),
            ("cycle 5000\nwait 1 day\n", "line 2: 1 day is no time"),
            ("cycle 5000\nwait 20s\n", "line 2: up to here the history has 1,005,000 steps"),
            ("ticks 200ms\n", "a number from 1 to 100"),
            ("OB 35\n", "OB 35 doesn't arrive"),
            ("step 0\n", "a number of steps is 1 to 1,000,000"),
            ("DB10.DBX 0.0 1\n", "DB10.DBX 0.0 1; only inputs come from outside"),
            ("I 0.0\n", "I 0.0; a value stands behind it"),
            ('"Start"\n', '"Start"; a value stands behind it'),
            ('"Start"=1\n', "tools/history --help has each kind of line"),
            ("press start\n", "line 1: this line says nothing that is known: press start"),
        ):
            self.expect_refused(said, "history", "-", "--symbols", "symbols", given=lines)

    def test_files_that_are_not_there(self):
        self.expect_refused("nowhere can't be read", "history", "nowhere")
        self.write("steps", "")
        self.expect_refused("nowhere can't be read", "history", "steps", "--symbols", "nowhere")
        self.write("symbols", "a,I 0.0,BOOL\n")
        self.expect_refused("symbols, line 1: a symbol has four fields", "history", "steps", "--symbols", "symbols")
