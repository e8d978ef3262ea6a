"""Calls of the program."""
import os
import pathlib
import subprocess
from typing import NamedTuple

from texts.tool import Refused, decoded

TOP = pathlib.Path(__file__).resolve().parents[2]
PROVED = TOP / "crates" / "s7" / "out" / "s7"


class Answer(NamedTuple):
    status: int
    text: str


def program():
    """The program that the variable S7 names, else the proved one."""
    named = os.environ.get("S7")
    path = named or str(PROVED)
    if os.access(path, os.X_OK) and not os.path.isdir(path):
        return os.path.abspath(path)
    if named:
        raise Refused(f"{path}, which S7 names, is no program")
    raise Refused("no proved program is built: ./build makes it, and with S7=./s7 each call is answered without the proof, in about two minutes")


def call(*words):
    """The answer of a call of the program with these words."""
    environment = {**os.environ, "S7_EXPLAIN": "0"}
    ran = subprocess.run([program(), *map(str, words)], env=environment, stdin=subprocess.DEVNULL, stdout=subprocess.PIPE)
    return Answer(ran.returncode, decoded(ran.stdout))
