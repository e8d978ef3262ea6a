"""How tests call the tools: as a user does, in a folder of their own."""
import os
import pathlib
import subprocess
import tempfile
import unittest

TOP = pathlib.Path(__file__).resolve().parents[2]


class ToolTest(unittest.TestCase):
    """A test with a folder of its own, in which it writes files and calls tools."""

    def setUp(self):
        folder = tempfile.TemporaryDirectory()
        self.addCleanup(folder.cleanup)
        self.folder = pathlib.Path(folder.name)

    def write(self, name, text):
        """Writes a file of this text, or of these bytes."""
        data = text if isinstance(text, bytes) else text.encode()
        (self.folder / name).write_bytes(data)
        return name

    def read(self, name):
        return (self.folder / name).read_text(encoding="utf-8")

    def call(self, tool, *words, given=""):
        """What a tool answers to these words."""
        return subprocess.run(
            [TOP / "tools" / tool, *words], cwd=self.folder, input=given, stdout=subprocess.PIPE, stderr=subprocess.PIPE, text=True
        )

    def expect(self, status, out, tool, *words, given=""):
        """A call that ends with this status, writes this text and complains of nothing."""
        answer = self.call(tool, *words, given=given)
        self.assertEqual((answer.stdout, answer.stderr, answer.returncode), (out, "", status))

    def expect_refused(self, said, tool, *words, given=""):
        """A call that is refused in one line with this text."""
        answer = self.call(tool, *words, given=given)
        self.assertEqual((answer.returncode, answer.stdout), (2, ""))
        self.assertEqual(answer.stderr.count("\n"), 1, answer.stderr)
        self.assertIn(said, answer.stderr)
