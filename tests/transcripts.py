"""Reads files of transcripts: tests/files.txt and tests/sessions.txt

A line is a step, `WORD: REST`, and the lines below it that begin with `|` are its text. `case: TITLE` begins a case. In
a text `\\xHH` is that byte, and a `\\` at a line's end leaves out the LF; every other `\\` is one. The rest of a step is
words between spaces, with the same bytes. A line that begins with `#` is a comment.
"""
import pathlib
import re
import typing

FOLDER = pathlib.Path(__file__).resolve().parent


class Step(typing.NamedTuple):
    word: str
    rest: list
    text: bytes
    line: int


def unescaped(text):
    return re.sub(rb"\\x([0-9A-F]{2})", lambda it: bytes([int(it[1], 16)]), text.encode())


def steps_of(lines):
    """The steps of these lines, each with its number."""
    word, rest, text, first = None, [], "", 0
    for number, line in enumerate(lines, 1):
        if line.startswith("|"):
            text += line[1:-1] if line.endswith("\\") else line[1:] + "\n"
        elif line and not line.startswith("#"):
            if word:
                yield Step(word, rest, unescaped(text), first)
            word, _, rest = line.partition(":")
            rest = [unescaped(it).decode() for it in rest.strip().split(" ") if it]
            text, first = "", number
    yield Step(word, rest, unescaped(text), first)


def cases_of(name):
    """The title and the steps of each case of a file of this folder."""
    cases = []
    for step in steps_of((FOLDER / name).read_text(encoding="utf-8").split("\n")):
        if step.word == "case":
            cases.append((" ".join(step.rest), []))
        else:
            cases[-1][1].append(step)
    return cases
