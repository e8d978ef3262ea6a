"""tools/compare over the program. What differs is worked out by hand from docs/SEMANTICS.md."""
import os
import re
import unittest.mock

from tests.calling import TOP, ToolTest

HEAD = "ORGANIZATION_BLOCK OB 1\nBEGIN\n"
END = "END_ORGANIZATION_BLOCK\n"
DELAY = HEAD + "A I 0.0;\nL S5T#200MS;\nSD T 1;\nA T 1;\n= Q 4.0;\n" + END
STORE = "DATA_BLOCK DB 10 STRUCT a : BYTE; b : BYTE; END_STRUCT; BEGIN END_DATA_BLOCK\n" + HEAD + "L 5;\nT DB10.DBB 1;\n" + END
COUNT = "DATA_BLOCK DB 10 STRUCT n : INT; END_STRUCT BEGIN END_DATA_BLOCK\n" + HEAD + "L DB10.DBW 0;\n+ 1;\nT DB10.DBW 0;\n" + END
STEPS = "I 0.0 1\nwait 500ms\n"
MIXING = '"Start" 1\n"Empty" 1\nwait 2s\n'
STAR = '"Stop" 1\n"Relay" 1\nticks 50ms\nwait 200ms\n"Start" 1\nwait 200ms\n"Start" 0\nwait 2600ms\n'


class Comparisons(ToolTest):
    def setUp(self):
        super().setUp()
        self.write("old", DELAY)
        self.write("steps", STEPS)

    def test_a_program_is_as_itself(self):
        self.expect(0, "no difference\n", "compare", "old", "old", "steps")

    def example_with_nops(self, example, steps, every):
        """Compares an example with copies of it that have a NOP 0 behind one of its statements, each `every`th in turn."""
        folder = TOP / "examples" / example
        source = (folder / "source.awl").read_bytes()
        self.write("example", source)
        self.write("example_steps", steps)
        ends = [match.end() for match in re.finditer(rb"^ .*\b(?:A|AN|L|T|FP|SD|=) +.*;", source, re.MULTILINE)]
        self.assertGreater(len(ends), every)
        for end in ends[::every]:
            self.write("example_nop", source[:end] + b" NOP 0;" + source[end:])
            self.expect(0, "no difference\n", "compare", "example", "example_nop", "example_steps", "--symbols", str(folder / "symbols.csv"))

    def test_an_added_nop_shows_no_difference(self):
        self.write("new", DELAY.replace("A T 1;", "NOP 0;\nA T 1;"))
        self.expect(0, "no difference\n", "compare", "old", "new", "steps")
        self.example_with_nops("mixing_sequence", MIXING, 11)
        self.example_with_nops("star_delta", STAR, 9)

    def test_a_changed_line_of_a_sequence(self):
        folder = TOP / "examples" / "star_delta"
        self.write("star", STAR)
        words = [str(folder / "source.awl"), str(folder / "without_pause.awl"), "star", "--symbols", str(folder / "symbols.csv")]
        self.expect(1, '2.200 s to 2.250 s  Q 4.2 "K3 delta": old 0, new 1\n', "compare", *words)

    def test_both_get_as_many_cycles(self):
        self.write("count", COUNT)
        self.write("slow", COUNT.replace("+ 1;", "NOP 0;\n" * 50 + "+ 1;"))
        self.write("twice", COUNT.replace("+ 1;", "+ 2;"))
        # one more than the three that are asked for; then one more than one, before the tick and behind it
        for steps, cycles in (("cycles 3\n", 4), ("cycle 7\ncycles 3\n", 4), ("wait 100ms\n", 4), ("wait 200ms\n", 6), ("I 0.0 1\n", 0)):
            self.write("steps", steps)
            self.expect(0, "no difference\n", "compare", "count", "slow", "steps")
            told = f"at the end  DB 10 byte 1: old {cycles:02X}, new {2 * cycles:02X}\n" if cycles else "no difference\n"
            self.expect(1 if cycles else 0, told, "compare", "count", "twice", "steps")

    def test_the_first_cycle_is_the_first_of_the_program(self):
        # byte 1 of the start information is 1 in the first cycle alone, and that sees the inputs that were set before
        first = HEAD + "L LB 1;\nL 1;\n==I;\nA I 0.0;\nS Q 4.0;\n" + END
        self.write("first", first)
        self.write("never", first.replace("A I 0.0", "AN I 0.0"))
        self.expect(1, "0.000 s to the end  Q 4.0: old 1, new 0\n", "compare", "first", "never", "steps")

    def test_registers_begin_as_zero(self):
        begin = "T QD 0;\nTAK;\nT QD 4;\nTAR1 QD 8;\nL STW;\nT QW 12;\nA I 0.0;\n= Q 14.0;\n"
        zeros = "L 0;\nT QD 0;\nT QD 4;\nT QD 8;\nT QW 12;\nSET;\nA I 0.0;\n= Q 14.0;\n"
        self.write("old", HEAD + begin + END)
        self.write("new", HEAD + zeros + END)
        self.expect(0, "no difference\n", "compare", "old", "new", "steps")
        self.write("new", HEAD + zeros.replace("A I", "AN I") + END)
        self.expect(1, "0.000 s to the end  Q 14.0: old 1, new 0\n", "compare", "old", "new", "steps")

    def test_without_an_ob_1(self):
        alone = "ORGANIZATION_BLOCK OB 40\nBEGIN\nSET;\n= Q 4.0;\n" + END
        self.write("old", alone)
        self.write("new", alone.replace("Q 4.0", "Q 4.1"))
        self.write("steps", "wait 100ms\nOB 40\nwait 100ms\n")
        lines = "0.100 s to the end  Q 4.0: old 1, new 0\n0.100 s to the end  Q 4.1: old 0, new 1\n"
        self.expect(1, lines, "compare", "old", "new", "steps")

    def test_interrupts_come_between_two_cycles(self):
        cycles = HEAD + "L MB 0;\nINC 1;\nT MB 0;\nT QB 5;\n" + END
        interrupts = "".join(f"ORGANIZATION_BLOCK OB {number}\nBEGIN\nL MB 0;\nT QB {number};\n{END}" for number in (35, 40))
        self.write("old", cycles + interrupts)
        self.write("new", cycles.replace("INC 1;", "INC 1;\nNOP 0;") + interrupts.replace("BEGIN\n", "BEGIN\n" + "NOP 0;\n" * 90))
        self.write("steps", "wait 250ms\nOB 40\nwait 250ms\n")
        self.expect(0, "no difference\n", "compare", "old", "new", "steps")
        # OB 35 comes every 100 ms: behind the first tick, when two cycles have passed
        self.write("new", cycles + interrupts.replace("L MB 0;\nT QB 35", "L 2;\nT QB 35"))
        # then 4, 10, 12 and 14, since two cycles more stand before and behind the arrival
        lines = [
            "0.200 s to 0.300 s  Q 35.1: old 0, new 1",
            "0.200 s to 0.300 s  Q 35.2: old 1, new 0",
            "0.300 s to the end  Q 35.3: old 1, new 0",
            "0.400 s to 0.500 s  Q 35.1: old 0, new 1",
            "0.400 s to the end  Q 35.2: old 1, new 0",
        ]
        self.expect(1, "".join(line + "\n" for line in lines), "compare", "old", "new", "steps")

    def test_a_startup_and_long_cycles(self):
        loop = "L 300;\nn: NOP 0;\nLOOP n;\n"
        startup = "ORGANIZATION_BLOCK OB 100\nBEGIN\n" + loop + "L 7;\nT MB 0;\n" + END
        self.write("old", HEAD + loop + "L MB 0;\nT QB 4;\n" + END + startup)
        self.write("new", HEAD + "L 7;\nT QB 4;\n" + END)
        self.expect(0, "no difference\n", "compare", "old", "new", "steps")

    def test_peripheral_bytes_that_the_sources_name(self):
        self.write("old", HEAD + "L PIW 766;\nT PQW 766;\n" + END)
        self.write("new", HEAD + "L PIW 766;\n+ 1;\nT PQW 766;\n" + END)
        self.write("steps", "PIW 766 5\nwait 100ms\n")
        self.expect(1, "0.000 s to the end  PQB 767: old 16#05, new 16#06\n", "compare", "old", "new", "steps")
        self.write("new", HEAD + "".join(f"L PID {byte};\nT PQD {byte};\n" for byte in range(256, 768, 4)) + END)
        self.expect_refused("one has to be free to tell where a cycle ends", "compare", "old", "new", "steps")
        # a pointer to byte 767 of the peripheral area
        self.write("old", HEAD + "L DW#16#800017F8;\nLAR1;\nL 5;\nT B[AR1, P#0.0];\n" + END)
        self.expect_refused("old writes PQB 767 by a pointer", "compare", "old", "old", "steps")

    def test_a_cycle_without_end(self):
        self.write("new", HEAD + "n: AN I 0.7;\nJC n;\n" + END)
        self.expect_refused("new: of the cycles of steps, line 2, one doesn't end within 100,000 steps", "compare", "old", "new", "steps")

    def test_lines_of_steps(self):
        self.write("steps", "in 0 01\nstep 20\n")
        self.expect_refused("steps, line 2: whole cycles are counted here, so `step 20` says nothing", "compare", "old", "old", "steps")

    def test_a_shorter_time(self):
        self.write("new", DELAY.replace("200MS", "100MS"))
        self.write("symbols", "Lamp,Q 4.0,BOOL,\n")
        self.expect(1, '0.100 s to 0.200 s  Q 4.0 "Lamp": old 0, new 1\n', "compare", "old", "new", "steps", "--symbols", "symbols")

    def test_another_output(self):
        self.write("new", DELAY.replace("Q 4.0", "Q 4.1"))
        lines = "0.200 s to the end  Q 4.0: old 1, new 0\n0.200 s to the end  Q 4.1: old 0, new 1\n"
        self.expect(1, lines, "compare", "old", "new", "steps")

    def test_a_stop(self):
        self.write("new", DELAY.replace("= Q 4.0;", "= Q 4.0;\nA T 1;\nJCN end;\nL P#1.0;\nT MD 0;\nL MW [MD 0];\nL MW 4000;\nend: NOP 0;"))
        answer = self.call("compare", "old", "new", "steps")
        self.assertEqual(answer.returncode, 1)
        self.assertIn("0.200 s to the end  the mode: old RUN, new STOP 3\n", answer.stdout)

    def test_data_blocks_at_the_end(self):
        self.write("old", STORE)
        self.write("new", STORE.replace("L 5;", "L 255;"))
        self.expect(1, "at the end  DB 10 byte 1: old 05, new FF\n", "compare", "old", "new", "steps")
        self.write("new", STORE.replace("a : BYTE; b : BYTE;", "a : BYTE; b : BYTE; c : BYTE;"))
        self.expect(
            1, "at the end  DB 10 byte 2: old --, new 00\nat the end  DB 10 byte 3: old --, new 00\n", "compare", "old", "new", "steps"
        )

    def test_new_symbols(self):
        named = DELAY.replace("A I 0.0", 'A "Go"')
        self.write("old", named)
        self.write("one", "Go,I 0.0,BOOL,\n")
        self.write("other", "Go,I 0.1,BOOL,\n")
        words = ["compare", "old", "old", "steps", "--symbols", "one"]
        self.expect(0, "no difference\n", *words)
        self.expect(1, "0.200 s to the end  Q 4.0: old 1, new 0\n", *words, "--new-symbols", "other")

    def test_without_a_program(self):
        with unittest.mock.patch.dict(os.environ, {"S7": "nowhere"}):
            self.expect_refused("nowhere, which S7 names, is no program", "compare", "old", "old", "steps")
            self.expect_refused("nowhere, which S7 names, is no program", "refusals", "old")

    def test_refusals(self):
        self.write("new", DELAY.replace("A I 0.0", "A I 0.8"))
        answer = self.call("compare", "old", "new", "steps")
        self.assertEqual((answer.returncode, answer.stdout), (2, ""))
        for said in ("new: source refused: line 3 rule 10", "A I 0.8;", "a clause isn't in the grammar"):
            self.assertIn(said, answer.stderr)
