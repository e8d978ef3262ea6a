"""The words of a call of `s7`, as the program reads them (docs/REFUSALS.md, "Statuses")."""
from typing import NamedTuple, Optional

OPTIONS = ("--symbols", "--steps")
SCRIPTS = tuple(f"script {number}" for number in range(1, 5))
# what the words behind a command are: files that it reads, those that it writes, or no file
WRITTEN = ("written", "also written")
WORDS_BY_COMMAND = {
    "go": ("source", "history"),
    "check": ("source",),
    "compile": ("source", "written"),
    "english": ("source", "written"),
    "german": ("source", "written"),
    "run": ("image", "history"),
    "gen": (None,),
    "live": ("image", "stimuli", *SCRIPTS),
    "watch": ("image", "stimuli", "vars", *SCRIPTS[:3]),
    "upgrade": ("image", "written"),
    "list": ("image", *WRITTEN),
    "bound": ("image", "written"),
    "recheck": ("image", "certificate"),
}
QUESTIONS = {"--help": "help", "-h": "help", "--version": "version", "-V": "version"}


class Word(NamedTuple):
    """A word that may name a file: its number among the words, what stands before the name in it, and the name."""

    index: int
    before: str
    path: str


class Call(NamedTuple):
    command: Optional[str]
    plain: list
    symbols: Optional[Word]

    def named(self):
        """What the words behind the command are, each with its word."""
        return dict(zip(WORDS_BY_COMMAND.get(self.command, ()), self.plain))

    def input_words(self):
        """The words of the input files by what they are, in the order in which the program reads them."""
        found = [(kind, word) for kind, word in self.named().items() if kind is not None and kind not in WRITTEN]
        symbols = [("symbols", self.symbols)] if self.symbols else []
        return dict(found[:1] + symbols + found[1:])

    def inputs(self):
        """The names of the input files."""
        return {kind: word.path for kind, word in self.input_words().items()}

    def written_words(self):
        """The words of the files that the command writes."""
        return [word for kind, word in self.named().items() if kind in WRITTEN]


def question_of(words):
    """`help` or `version` where the only word asks for it, or None."""
    return QUESTIONS.get(words[0]) if len(words) == 1 else None


def read_call(words):
    """The command and the files that the words name. The program judges the words; of those that it refuses this tells
    what can be told."""
    plain, symbols, takes_options, awaited = [], None, True, None
    for index, word in enumerate(words):
        name, has_value, value = word.partition("=")
        if awaited:
            symbols = Word(index, "", word) if awaited == "--symbols" else symbols
            awaited = None
        elif takes_options and word == "--":
            takes_options = False
        elif takes_options and name in OPTIONS and has_value:
            symbols = Word(index, f"{name}=", value) if name == "--symbols" else symbols
        elif takes_options and word in OPTIONS:
            awaited = word
        elif not takes_options or not word.startswith("-") or word == "-":
            plain.append(Word(index, "", word))
    return Call(plain[0].path if plain else None, plain[1:], symbols)
