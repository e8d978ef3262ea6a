"""tools/timeline: lines, dump and diagram of a run whose text was worked out by hand from docs/FORMATS.md."""
import re
import xml.etree.ElementTree

from tests.calling import ToolTest

# entries: 1 in, 2 to 7 steps, 8 tick, 9 in, 10 to 14 steps, 15 arrival, 16 tick, 17 to 21 steps
HISTORY = "in 0 01\nstep 6\ntick 100\n// let go\nin 0 00\nstep 5\narrive 40 0000000A\ntick 50\nstep 5\n"
RUN = "@7 PQ 4 = 81\n@14 PQ 4 = 80\n@14 PQ 6 = FF\n@14 PQ 7 = FE\n@17 PQ 256 = 0A\n@21 PQ 4 = 00\n@21 MODE STOP 8 AT OB 1 LINE 3\nEND 21 STOP 8\nDB 10 0 000600\n"
SYMBOLS = '"Start ","I       0.0 ","BOOL      ",""\n"Motor","Q 4.0","BOOL",""\n"Speed","QW 6","INT",""\n'
NAMES = ["--symbols", "symbols"]


class Timelines(ToolTest):
    def setUp(self):
        super().setUp()
        for name, text in (("history", HISTORY), ("run", RUN), ("symbols", SYMBOLS)):
            self.write(name, text)

    def test_lines(self):
        self.expect(
            0,
            '0.000 s  I 0.0 "Start" 0 -> 1\n'
            '0.000 s  Q 4.0 "Motor" 0 -> 1\n'
            "0.000 s  Q 4.7 0 -> 1\n"
            '0.100 s  I 0.0 "Start" 1 -> 0\n'
            '0.100 s  Q 4.0 "Motor" 1 -> 0\n'
            '0.100 s  QW 6 "Speed" 0 -> -2\n'
            "0.100 s  OB 40 is requested with 16#0000000A\n"
            "0.150 s  PQB 256 16#00 -> 16#0A\n"
            "0.150 s  Q 4.7 1 -> 0\n"
            "0.150 s  STOP 8 at OB 1 LINE 3\n"
            "0.150 s  the end, in STOP 8, after 21 entries\n"
            "0.150 s  DB 10 from byte 0: 0006 00\n",
            "timeline", "run", "history", *NAMES,
        )

    def test_a_time_error(self):
        self.write("run", RUN.replace("STOP 8", "STOP 9"))
        said = "0.150 s  STOP 9 at OB 1 LINE 3 (is `cycle` in the steps too small? docs/FORMATS.md has every reason of cause 9)\n"
        self.assertIn(said, self.call("timeline", "run", "history").stdout)

    def test_without_symbols_bits_are_shown(self):
        answer = self.call("timeline", "run", "history")
        self.assertIn("0.100 s  Q 6.7 0 -> 1\n", answer.stdout)
        self.assertIn("0.000 s  Q 4.0 0 -> 1\n", answer.stdout)
        self.assertNotIn("Q 7.0", answer.stdout)

    def test_chosen_signals(self):
        self.expect(
            0,
            '0.000 s  Q 4.0 "Motor" 0 -> 1\n'
            "0.100 s  QB 7 16#00 -> 16#FE\n"
            '0.100 s  Q 4.0 "Motor" 1 -> 0\n'
            "0.100 s  OB 40 is requested with 16#0000000A\n"
            "0.150 s  STOP 8 at OB 1 LINE 3\n"
            "0.150 s  the end, in STOP 8, after 21 entries\n"
            "0.150 s  DB 10 from byte 0: 0006 00\n",
            "timeline", "-", "history", *NAMES, "--signals", 'QB 7,"motor"', given=RUN,
        )

    def test_a_name_with_a_comma(self):
        self.write("symbols", '"Motor, left","Q 4.0","BOOL",""\n')
        answer = self.call("timeline", "run", "history", *NAMES, "--signals", '"motor, left",QB 4')
        self.assertTrue(answer.stdout.startswith('0.000 s  Q 4.0 "Motor, left" 0 -> 1\n0.000 s  QB 4 16#00 -> 16#81\n'), answer.stdout)

    def test_dump(self):
        self.expect(0, "", "timeline", "run", "history", *NAMES, "--vcd", "dump", "--signals", "Start,Motor,Speed")
        self.assertEqual(
            self.read("dump"),
            "$timescale 1 ms $end\n$scope module s7 $end\n"
            "$var wire 1 ! I0.0_Start $end\n$var wire 1 \" Q4.0_Motor $end\n$var wire 16 # QW6_Speed $end\n"
            "$upscope $end\n$enddefinitions $end\n"
            '#0\n1!\n1"\nb0 #\n#100\n0!\n0"\nb1111111111111110 #\n#150\n',
        )

    def test_a_dump_has_the_last_value_of_each_millisecond(self):
        self.write("history", "step 4\ntick 1\nstep 3\n")
        self.write("run", "@1 PQ 0 = 01\n@3 PQ 0 = 00\n@6 PQ 0 = 01\n@7 PQ 0 = 00\n@8 PQ 0 = 01\nEND 8 RUN\n")
        self.expect(0, "", "timeline", "run", "history", "--vcd", "dump")
        self.assertTrue(self.read("dump").endswith("#0\n0!\n#1\n1!\n"), self.read("dump"))

    def test_a_pulse_within_a_millisecond(self):
        # Q 0.0 is 1 for some entries and 0 again, Q 0.1 changes three times and stays 1; the axis holds 10 ms and 1 more
        self.write("history", "tick 5\nstep 4\ntick 5\n")
        self.write("run", "@2 PQ 0 = 03\n@3 PQ 0 = 00\n@4 PQ 0 = 02\nEND 6 RUN\n")
        self.expect(0, "", "timeline", "run", "history", "--svg", "picture", "--signals", "Q 0.0,Q 0.1")
        pulses = re.findall(r'<path class="output" style="stroke-width: 1" d="M([0-9.]+),(\d+) V(\d+)"/>', self.read("picture"))
        left = 16 + round(5 * 7.85) + 14
        self.assertEqual(pulses, [(str(round(left + (944 - left) * 5 / 11, 1)), "24", "44")])

    def test_entries(self):
        self.write("history", "tick 5\nstep 4\ntick 5\n")
        self.write("run", "@2 PQ 0 = 01\n@3 PQ 0 = 00\n@4 MODE STOP 1 AT OB 1 LINE 2\nEND 6 STOP 1\n")
        lines = ["0.005 s  @2  Q 0.0 0 -> 1", "0.005 s  @3  Q 0.0 1 -> 0", "0.005 s  @4  STOP 1 at OB 1 LINE 2", "0.010 s  @6  the end, in STOP 1, after 6 entries"]
        self.expect(0, "".join(line + "\n" for line in lines), "timeline", "run", "history", "--entries")

    def test_diagram(self):
        self.expect(0, "", "timeline", "run", "history", *NAMES, "--svg", "picture", "--signals", "Start,Speed", "--title", "Fast & slow")
        tree = xml.etree.ElementTree.fromstring(self.read("picture"))
        texts = [it.text for it in tree.iter("{http://www.w3.org/2000/svg}text")]
        times = ["0 s", "0.02 s", "0.04 s", "0.06 s", "0.08 s", "0.1 s", "0.12 s", "0.14 s"]
        self.assertEqual(texts, ["Fast & slow", *times, 'I 0.0 "Start"', 'QW 6 "Speed"', "0", "-2", "STOP 8"])
        # the labels' column ends at 16 + 13 * 7.85 + 14 = 132; the axis is 812 wide and holds 150 ms and 6 more behind them
        end_of_pulse = round(132 + 812 * 100 / 156, 1)
        self.assertIn(f'd="M132.0,48 H{end_of_pulse} L{end_of_pulse},68 H944.0"', self.read("picture"))

    def test_a_diagram_is_legible_on_any_page(self):
        self.expect(0, "", "timeline", "run", "history", "--svg", "picture")
        light, _, dark = self.read("picture").partition("prefers-color-scheme: dark")
        for scheme in (light, dark):
            ground = re.search(r"\.ground \{ fill: (#[0-9a-f]{6})", scheme)[1]
            written = re.search(r"  text \{ .*?fill: (#[0-9a-f]{6})", scheme)[1]
            drawn = re.findall(r"path\.\w+ \{ stroke: (#[0-9a-f]{6})", scheme)
            self.assertEqual(len(drawn), 2)
            self.assertGreater(contrast(written, ground), 7)
            self.assertGreater(min(contrast(color, ground) for color in drawn), 4.5)
        width, height = re.search(r'viewBox="0 0 (\d+) (\d+)"', light).groups()
        ground = f'<rect class="ground" x="0.5" y="0.5" width="{int(width) - 1}" height="{int(height) - 1}"'
        self.assertIn(ground, self.read("picture"))

    def test_refusals(self):
        self.write("short", "in 0 01\n")
        self.write("wrong", "step 1\nin 128 00\n")
        self.write("refused", "source refused: line 4 rule 10\n")
        self.write("no_end", "@7 PQ 4 = 01\n")
        self.write("still", "step 7\n")
        self.write("still_run", "@7 PQ 4 = 01\nEND 7 RUN\n")
        for said, words in (
            ("the run has 21 entries and the history 1", ["run", "short"]),
            ("wrong, line 2: an input byte is 0 to 127 or 256 to 767: in 128 00", ["run", "wrong"]),
            ("refused, line 1: this isn't the text of a run: source refused", ["refused", "history"]),
            ("has a line END", ["no_end", "history"]),
            ("nowhere can't be read", ["nowhere", "history"]),
            ("Stat is neither an input or output", ["run", "history", *NAMES, "--signals", "Stat"]),
            ("no time passes in this history", ["still_run", "still", "--svg", "picture"]),
            ("nowhere/picture can't be written", ["run", "history", "--svg", "nowhere/picture"]),
        ):
            self.expect_refused(said, "timeline", *words)


def contrast(one, other):
    """The contrast of two colors, from 1 to 21, as the Web Content Accessibility Guidelines define it."""

    def luminance(color):
        parts = [int(color[at : at + 2], 16) / 255 for at in (1, 3, 5)]
        linear = [it / 12.92 if it <= 0.04045 else ((it + 0.055) / 1.055) ** 2.4 for it in parts]
        return 0.2126 * linear[0] + 0.7152 * linear[1] + 0.0722 * linear[2] + 0.05

    return max(luminance(one), luminance(other)) / min(luminance(one), luminance(other))
