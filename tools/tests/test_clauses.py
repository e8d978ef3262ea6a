"""What a clause of a source may name, by docs/LANGUAGE.md, "Grammar" and "Names"."""
import unittest

from texts.clauses import clauses_of


class Names(unittest.TestCase):
    def expect(self, statement, *names):
        source = b"FUNCTION FC 1 : VOID\nBEGIN\n" + statement + b"\nEND_FUNCTION\n"
        clause = next(it for it in clauses_of(source) if it.line == 3)
        self.assertEqual(clause.names() - {b""}, set(names), statement)

    def test_operands(self):
        self.expect(b"x: L #speed;", b"SPEED")
        self.expect(b"CALL FC 2 (a := Mcr);", b"FC2", b"FC", b"A", b"MCR")
        self.expect(b"A mcr;", b"MCR")

    def test_instructions_are_no_names(self):
        for statement in (b"SET;", b"x: A(;", b");", b"MCRA;", b"MCRD;", b"x: MCR (;", b"x: ) mcr;", b")MCR;"):
            self.expect(statement)

    def test_operands_behind_brackets(self):
        self.expect(b") #mcr;", b"MCR")
        self.expect(b") mcr1;", b"MCR1")


if __name__ == "__main__":
    unittest.main()
