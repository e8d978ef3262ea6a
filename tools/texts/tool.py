"""How a tool begins and ends, and how it reads and shows text."""
import os
import sys

TROUBLE = 2
INTERRUPTED = 130


class Refused(Exception):
    """What a tool doesn't take; the text is for the user."""


def run(main):
    """Ends with the status of `main`, or with TROUBLE and one line where it refuses something."""
    for stream in (sys.stdout, sys.stderr):
        stream.reconfigure(errors="backslashreplace")
    try:
        status = main(sys.argv[1:])
        sys.stdout.flush()
    except Refused as refusal:
        print(f"tools/{os.path.basename(sys.argv[0])}: {refusal}", file=sys.stderr)
        status = TROUBLE
    except BrokenPipeError:
        # nobody reads any more: the interpreter shall not try to write the rest when it ends
        os.dup2(os.open(os.devnull, os.O_WRONLY), sys.stdout.fileno())
        status = TROUBLE
    except KeyboardInterrupt:
        status = INTERRUPTED
    sys.exit(status)


def decoded(data):
    """The text of bytes that are UTF-8, or else in the code page of Windows."""
    try:
        return data.decode("utf-8")
    except UnicodeDecodeError:
        return data.decode("cp1252", errors="replace")


def on_one_line(text, most=200):
    """A text as a terminal can show it: without what isn't printable, and not longer than so many characters."""
    printable = "".join(char if char.isprintable() else " " for char in text)
    return printable if len(printable) <= most else printable[: most - 1] + "…"


def read_bytes(path):
    """The bytes of a file, or of standard input where the path is `-`."""
    try:
        if path == "-":
            return sys.stdin.buffer.read()
        with open(path, "rb") as file:
            return file.read()
    except OSError as error:
        raise Refused(f"{path} can't be read: {error.strerror}") from error


def read_text(path):
    return decoded(read_bytes(path))


def write_text(path, text):
    try:
        with open(path, "w", encoding="utf-8", newline="\n") as file:
            file.write(text)
    except OSError as error:
        raise Refused(f"{path} can't be written: {error.strerror}") from error


def lines_of(text):
    """The lines with their numbers. A line ends with LF or CR LF, the last one may lack it."""
    lines = text.split("\n")
    if lines[-1] == "":
        lines.pop()
    return [(number, line[:-1] if line.endswith("\r") else line) for number, line in enumerate(lines, 1)]
