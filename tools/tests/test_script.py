"""The scripts ./s7 and ./build, in a copy of what they need, with stand-ins for `rt` and for the proved program."""
import os
import re
import shutil
import subprocess
import sys
import time

from tests.calling import TOP, ToolTest

COPIED = ["s7", "build", "tools", "docs/REFUSALS.md", "docs/FORMATS.md", "crates.txt", "crates/s7_cli/src/help.rt", "crates/s7/src/main.rt"]
COMMANDS = "awk bash cat chmod cp dirname env find grep mkdir mktemp readlink rm sleep touch wc".split()

# says what it got, and answers what the files beside it say
RT = """\
#!/usr/bin/env bash
here=$(dirname "$0")
printf '%s\\n' "$@" > "$here/words"
pwd > "$here/folder"
rm -f "$here"/got_*
for word in "$@"; do
  case $word in
    [0-9]*=/*) cp "${word#*=}" "$here/got_${word%%=*}" ;;
  esac
done
cat "$here/out"
cat "$here/err" >&2
exit "$(cat "$here/status")"
"""
BUILDING_RT = """\
#!/usr/bin/env bash
echo 'logic=proved crate'
mkdir -p out && printf '#!/bin/sh\\necho built\\n' > out/s7 && chmod +x out/s7
"""
PROGRAM = """\
#!/usr/bin/env bash
here=$(dirname "$0")
echo call >> "$here/calls"
readlink "/proc/$$/fd/1" >> "$here/sinks"
printf '%s\\n' "$@" > "$here/words"
cat "$here/answer"
exit "$(cat "$here/status")"
"""
ENDED = "checked: ended status={0}\nrun=ended status={0} runners=1 proved=no\n"


class ScriptTest(ToolTest):
    def setUp(self):
        super().setUp()
        self.top = self.folder / "repository"
        for name in COPIED:
            (self.top / name).parent.mkdir(parents=True, exist_ok=True)
            copy = shutil.copytree if (TOP / name).is_dir() else shutil.copy2
            copy(TOP / name, self.top / name)
        self.bin = self.folder / "bin"
        self.bin.mkdir()
        for name in COMMANDS:
            (self.bin / name).symlink_to(shutil.which(name))
        (self.bin / "python3").symlink_to(sys.executable)
        self.write("source", "A I 0.0;\n")
        self.write("history", "step\n")
        self.write("symbols", "Go,I 0.0,BOOL,\n")

    def executable(self, path, text):
        path.parent.mkdir(parents=True, exist_ok=True)
        path.write_text(text, encoding="utf-8")
        path.chmod(0o755)

    def run_script(self, script, *words, explain="1", named=None, **how):
        how = {"stdin": subprocess.DEVNULL, "stdout": subprocess.PIPE, "cwd": self.folder, **how}
        environment = {"PATH": str(self.bin), "HOME": os.environ.get("HOME", "/"), "S7_EXPLAIN": explain}
        environment.update({"S7": named} if named is not None else {})
        return subprocess.run([script, *words], env=environment, stderr=subprocess.PIPE, text=True, **how)

    def s7(self, *words, **how):
        return self.run_script(self.top / "s7", *words, **how)


class Unproved(ScriptTest):
    """./s7 where no proved program is built."""

    def setUp(self):
        super().setUp()
        self.rt("", ENDED.format(0), 0)

    def rt(self, out, err, status):
        self.executable(self.bin / "rt", RT)
        for name, text in (("out", out), ("err", err), ("status", f"{status}\n")):
            (self.bin / name).write_text(text, encoding="utf-8")

    def handed_over(self):
        """The words that rt got, without where the copies lie, and the copies."""
        words = re.sub(r"=/.*/", "=", (self.bin / "words").read_text()).split("\n")[:-1]
        return words, {path.name[4:]: path.read_bytes() for path in self.bin.glob("got_*")}

    def test_an_answer(self):
        self.rt("@7 PQ 4 = 01\nEND 7 RUN\n", "note: rt says\n" + ENDED.format(0), 0)
        answer = self.s7("go", "source", "history", "--symbols=symbols")
        self.assertEqual((answer.returncode, answer.stdout), (0, "@7 PQ 4 = 01\nEND 7 RUN\n"))
        self.assertEqual(answer.stderr.count("\n"), 1)
        self.assertIn("no proved program is built yet, so the same code answers without its proof", answer.stderr)
        self.assertIn("./build proves and builds the program", answer.stderr)
        words, files = self.handed_over()
        flags = ["--data", "1=1", "--data", "2=2", "--data", "3=3"]
        self.assertEqual(words, ["try", "--seconds", "600", *flags, "--", "go", "1", "2", "--symbols=3"])
        self.assertEqual(files, {"1": b"A I 0.0;\n", "2": b"step\n", "3": b"Go,I 0.0,BOOL,\n"})
        self.assertEqual((self.bin / "folder").read_text(), f"{self.top}/crates/s7\n")

    def test_other_forms_of_words(self):
        self.s7("--symbols", "symbols", "--", "check", "source")
        self.assertEqual(self.handed_over()[0][3:], ["--data", "1=1", "--data", "2=2", "--", "--symbols", "1", "--", "check", "2"])
        self.write("-x", "SET;\n")
        self.s7("check", "--", "-x")
        self.assertEqual(self.handed_over(), (["try", "--seconds", "600", "--data", "1=1", "--", "check", "--", "1"], {"1": b"SET;\n"}))
        self.s7("check", "source", "-x")
        self.assertEqual(self.handed_over()[0][-3:], ["check", "1", "-x"])
        self.s7("check", b"\xff")
        self.assertEqual(self.handed_over()[0], ["try", "--seconds", "600", "--"])

    def test_what_cannot_be_read_is_left_out(self):
        os.mkfifo(self.folder / "pipe")
        for name in ("nowhere", ".", "pipe"):
            self.rt("read fault\n", ENDED.format(5), 5)
            answer = self.s7("go", name, "history")
            self.assertEqual((answer.returncode, answer.stdout), (5, "read fault\n"))
            self.assertIn(f"s7: the source {name} can't be read", answer.stderr)
            words, files = self.handed_over()
            self.assertEqual(words[3:], ["--data", "2=2", "--", "go", "1", "2"])
            self.assertEqual(files, {"2": b"step\n"})

    def test_a_file_is_copied_up_to_its_limit(self):
        self.write("source", b" " * 9000000)
        self.s7("check", "source")
        self.assertEqual(len(self.handed_over()[1]["1"]), 1048577)
        self.s7("run", "source", "source")
        self.assertEqual([len(copy) for _, copy in sorted(self.handed_over()[1].items())], [8388609, 4194305])

    def test_a_refusal_is_explained(self):
        self.rt("source refused: line 1 rule 11\n", ENDED.format(2), 2)
        answer = self.s7("check", "source")
        self.assertEqual((answer.returncode, answer.stdout), (2, "source refused: line 1 rule 11\n"))
        self.assertIn("s7: source, line 1:\n        A I 0.0;\n    rule 11, broken where: a clause stands where", answer.stderr)
        self.assertEqual(self.s7("check", "source", explain="0").stderr.count("\n"), 1)

    def test_no_answer(self):
        for out, err, status in (
            ("", "error: no item names it\nrun=none proved=no\n", 2),
            ("half", "run=no-answer seconds=600 proved=no\n", 6),
            ("@1 PQ 4", "checked: fault\nrun=fault proved=no\n", 4),
            ("", "", 2),
        ):
            self.rt(out, err, status)
            answer = self.s7("go", "source", "history")
            self.assertEqual((answer.returncode, answer.stdout), (70, ""))
            self.assertIn(err, answer.stderr)
            self.assertIn("s7: there is no answer without the proof", answer.stderr.splitlines()[-1])

    def test_a_file_that_is_written_is_named_by_its_whole_path(self):
        self.s7("compile", "source", "image", "--symbols", "symbols")
        words = ["compile", "1", f"{self.folder}/image", "--symbols", "2"]
        self.assertEqual(self.handed_over()[0][3:], ["--data", "1=1", "--data", "2=2", "--", *words])
        self.s7("compile", "source", "/nowhere/image")
        self.assertEqual(self.handed_over()[0][-3:], ["compile", "1", "/nowhere/image"])
        self.s7("compile", "source", "nowhere/")
        self.assertEqual(self.handed_over()[0][-1], f"{self.folder}/nowhere/")
        self.s7("compile", "source", "source")
        self.assertEqual(self.handed_over(), (["try", "--seconds", "600", "--data", "1=1", "--", "compile", "1", f"{self.folder}/source"], {"1": b"A I 0.0;\n"}))

    def test_words_that_are_no_files(self):
        self.s7("gen", "7")
        self.assertEqual(self.handed_over()[0], ["try", "--seconds", "600", "--", "gen", "7"])
        self.s7("live", "source", "history", "history", "--steps", "5")
        self.assertEqual(self.handed_over()[0][-6:], ["live", "1", "2", "3", "--steps", "5"])
        self.s7("fly", "source")
        self.assertEqual(self.handed_over()[0][-2:], ["fly", "source"])

    def test_without_rt(self):
        (self.bin / "rt").unlink()
        answers = [self.s7("go", "source", "history"), self.run_script(self.top / "build")]
        for answer in answers:
            self.assertEqual((answer.returncode, answer.stdout), (70, ""))
            self.assertEqual(answer.stderr.count("\n"), 1)
            self.assertIn("rt, the command of the Rattle toolchain, isn't on the PATH", answer.stderr)

    def test_help_and_version_need_no_build(self):
        (self.bin / "rt").unlink()
        for word in ("--help", "-h"):
            answer = self.s7(word)
            self.assertEqual((answer.returncode, answer.stderr), (0, ""))
            self.assertTrue(answer.stdout.startswith("s7: a proved controller"))
            self.assertTrue(answer.stdout.endswith("\n  s7 go examples/interlock/source.awl examples/interlock/history.txt\n"))
        for word in ("--version", "-V"):
            self.assertEqual((self.s7(word).stdout, self.s7(word).returncode), ("s7 0.1.0\n", 0))

    def test_a_full_device(self):
        self.rt("OK\n", ENDED.format(0), 0)
        with open("/dev/full", "w", encoding="utf-8") as full:
            self.assertEqual(self.s7("check", "source", stdout=full).returncode, 6)
            self.assertEqual(self.s7("--help", stdout=full).returncode, 6)

    def test_a_link_finds_its_repository(self):
        (self.folder / "elsewhere").mkdir()
        (self.folder / "elsewhere" / "s7").symlink_to(self.top / "s7")
        self.assertEqual(self.run_script(self.folder / "elsewhere" / "s7", "-V").stdout, "s7 0.1.0\n")


class Proved(ScriptTest):
    """./s7 where a proved program is built."""

    def setUp(self):
        super().setUp()
        self.out = self.top / "crates" / "s7" / "out"
        self.executable(self.out / "s7", PROGRAM)
        self.answers("OK\n", 0)

    def answers(self, text, status):
        for name in ("calls", "sinks"):
            (self.out / name).unlink() if (self.out / name).exists() else None
        (self.out / "answer").write_text(text, encoding="utf-8")
        (self.out / "status").write_text(f"{status}\n", encoding="utf-8")

    def calls(self):
        return (self.out / "calls").read_text().count("call\n")

    def test_an_answer_is_the_programs(self):
        answer = self.s7("check", "source", "a b")
        self.assertEqual((answer.returncode, answer.stdout, answer.stderr), (0, "OK\n", ""))
        self.assertEqual((self.out / "words").read_text(), "check\nsource\na b\n")
        self.assertEqual(self.calls(), 1)

    def test_nothing_stands_between_program_and_output(self):
        self.answers("source refused: line 1 rule 10\n", 2)
        with open(self.folder / "written", "w", encoding="utf-8") as written:
            self.s7("check", "source", stdout=written)
        self.assertEqual((self.out / "sinks").read_text().splitlines()[0], str(self.folder / "written"))
        self.assertEqual(self.read("written"), "source refused: line 1 rule 10\n")

    def test_refusals_are_explained(self):
        for status, text, part in (
            (1, "words refused\n", "s7 check SRC"),
            (2, "source refused: line 1 rule 10\n", "rule 10, broken where: a clause isn't in the grammar"),
            (3, "image refused: offset 0 code 1\n", "the image, byte 0:\n    fault 1: "),
            (4, "history refused: line 1 rule 5\n", "rule 5, broken where: the operator"),
            (5, "read fault\n", ""),
            (8, "too long: source\n", "its limit (source) is 1,048,576"),
        ):
            self.answers(text, status)
            answer = self.s7("check", "source")
            self.assertEqual((answer.returncode, answer.stdout, self.calls()), (status, text, 2))
            self.assertIn(part, answer.stderr)

    def test_other_statuses_are_not(self):
        for status in (0, 6, 7):
            self.answers("", status)
            answer = self.s7("check", "source")
            self.assertEqual((answer.returncode, answer.stderr, self.calls()), (status, "", 1))

    def test_explanations_can_be_switched_off(self):
        self.answers("source refused: line 1 rule 10\n", 2)
        answer = self.s7("check", "source", explain="0")
        self.assertEqual((answer.returncode, answer.stdout, answer.stderr), (2, "source refused: line 1 rule 10\n", ""))
        self.assertEqual(self.calls(), 1)

    def test_another_program_may_be_named(self):
        self.executable(self.folder / "other" / "s7", PROGRAM)
        for name, text in (("answer", "other\n"), ("status", "0\n")):
            (self.folder / "other" / name).write_text(text, encoding="utf-8")
        self.assertEqual(self.s7("go", named="other/s7").stdout, "other\n")
        # the script itself is no other one
        for itself in ("", str(self.top / "s7"), "repository/s7"):
            self.assertEqual(self.s7("go", named=itself).stdout, "OK\n")
        for nothing in ("nowhere", "other", "source"):
            answer = self.s7("go", named=nothing)
            self.assertEqual((answer.returncode, answer.stdout), (70, ""))
            self.assertEqual(answer.stderr, f"s7: {nothing}, which S7 names, is no program\n")

    def test_a_program_that_is_out_of_date_answers_no_more(self):
        later = time.time() + 10
        os.utime(self.top / "crates" / "s7" / "src" / "main.rt", (later, later))
        self.executable(self.bin / "rt", RT)
        for name, text in (("out", "unproved\n"), ("err", ENDED.format(0)), ("status", "0\n")):
            (self.bin / name).write_text(text, encoding="utf-8")
        answer = self.s7("check", "source")
        self.assertEqual((answer.returncode, answer.stdout), (0, "unproved\n"))
        self.assertIn("the proved program is out of date, so the same code answers", answer.stderr)


class Build(ScriptTest):
    """./build."""

    def test_a_build(self):
        self.executable(self.bin / "rt", BUILDING_RT)
        answer = self.run_script(self.top / "build")
        self.assertEqual((answer.returncode, answer.stdout), (0, ""))
        said = answer.stderr.splitlines()
        self.assertIn("87 minutes", said[0])
        self.assertRegex(answer.stderr, r"\nbuild: crate \d+ of \d+, 0 minutes so far ")
        self.assertIn("proved and built", said[-1])
        self.assertEqual(self.s7("go").stdout, "built\n")
        self.assertIn("up to date", self.run_script(self.top / "build").stderr)

    def test_a_build_that_fails(self):
        self.executable(self.bin / "rt", "#!/usr/bin/env bash\necho refused\nexit 1\n")
        answer = self.run_script(self.top / "build")
        self.assertEqual(answer.returncode, 70)
        self.assertIn("the program could not be built", answer.stderr)
        self.assertEqual((self.top / "crates" / "s7" / "out" / "build.log").read_text(), "refused\n")

    def test_help(self):
        self.assertEqual(self.run_script(self.top / "build", "--help").returncode, 0)
        self.assertEqual(self.run_script(self.top / "build", "now").returncode, 1)
