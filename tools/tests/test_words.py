"""How the words of a call are read, by docs/REFUSALS.md, "Statuses"."""
import unittest

from texts.words import question_of, read_call


class Words(unittest.TestCase):
    def expect(self, words, command, files, symbols=None):
        call = read_call(words)
        self.assertEqual(call.command, command)
        self.assertEqual([(word.index, word.path) for word in call.plain], files)
        self.assertEqual(call.symbols and (call.symbols.index, call.symbols.before, call.symbols.path), symbols)

    def test_files_behind_the_command(self):
        self.expect(["go", "a", "b"], "go", [(1, "a"), (2, "b")])
        self.expect([], None, [])

    def test_symbols_anywhere(self):
        self.expect(["--symbols", "s", "check", "a"], "check", [(3, "a")], (1, "", "s"))
        self.expect(["go", "a", "--symbols=s=t", "b"], "go", [(1, "a"), (3, "b")], (2, "--symbols=", "s=t"))

    def test_behind_two_hyphens_all_is_plain(self):
        self.expect(["go", "a", "--", "-b"], "go", [(1, "a"), (3, "-b")])
        self.expect(["--", "check", "--symbols"], "check", [(2, "--symbols")])

    def test_a_hyphen_alone_is_a_file(self):
        self.expect(["check", "-"], "check", [(1, "-")])

    def test_other_options_are_no_files(self):
        self.expect(["check", "-x", "a", "--steps", "5"], "check", [(2, "a")])

    def test_questions(self):
        self.assertEqual([question_of([word]) for word in ("--help", "-h", "--version", "-V")], ["help", "help", "version", "version"])
        self.assertIsNone(question_of(["-V", "go"]))
        self.assertIsNone(question_of([]))

    def test_inputs_in_the_order_of_reading(self):
        for words, inputs in (
            ("go a b --symbols s", "source a, symbols s, history b"),
            ("compile --symbols s a b", "source a, symbols s"),
            ("go --german a b --symbols s", "source a, symbols s, history b"),
            ("english a b", "source a"),
            ("german a b", "source a"),
            ("run a b", "image a, history b"),
            ("live a b c d --steps 7", "image a, stimuli b, script 1 c, script 2 d"),
            ("live --steps=7 a b c d e f", "image a, stimuli b, script 1 c, script 2 d, script 3 e, script 4 f"),
            ("watch a b c d --steps 7", "image a, stimuli b, vars c, script 1 d"),
            ("watch a b c d e f --steps=7", "image a, stimuli b, vars c, script 1 d, script 2 e, script 3 f"),
            ("upgrade a b", "image a"),
            ("list a b c", "image a"),
            ("bound a b", "image a"),
            ("recheck a b", "image a, certificate b"),
            ("gen 7", ""),
            ("fly a b", ""),
        ):
            told = ", ".join(f"{kind} {path}" for kind, path in read_call(words.split()).inputs().items())
            self.assertEqual(told, inputs, words)

    def test_the_files_that_are_written(self):
        for command in ("compile", "english", "german", "upgrade", "bound"):
            self.assertEqual(read_call([command, "a", "b"]).written_words(), [(2, "", "b")])
        self.assertEqual(read_call(["list", "a", "b", "c"]).written_words(), [(2, "", "b"), (3, "", "c")])
        for words in (["compile", "a"], ["go", "a", "b"], ["run", "a", "b"], ["recheck", "a", "b"], ["gen", "1"], []):
            self.assertEqual(read_call(words).written_words(), [])


if __name__ == "__main__":
    unittest.main()
