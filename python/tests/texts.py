"""The texts with known answers."""
import os
import pathlib
import re
from typing import Dict, Iterator, List, Tuple

TOP = pathlib.Path(os.environ.get("DOVELECTERN_TOP") or pathlib.Path(__file__).resolve().parents[2])
COLUMNS = ["check", "format", "runtime", "check-two", "format-two", "json"]
_MARKS = {"\\": "\\", "n": "\n", "r": "\r", "t": "\t", "u{feff}": "\ufeff"}

Answers = Dict[str, Tuple[int, str]]


def _unescaped(field: str) -> str:
    return re.sub(r"\\(u\{feff\}|.)", lambda it: _MARKS[it[1]], field)


def _rows() -> Iterator[Tuple[str, Answers]]:
    file = TOP / "crates/fluent_syntax_checks/data/texts.tsv"
    for line in file.read_bytes().decode().split("\n")[:-1]:
        text, *answers = map(_unescaped, line.split("\t"))
        split = [answer.partition(":") for answer in answers]
        yield text, {word: (int(status), output) for word, (status, _, output) in zip(COLUMNS, split)}


def all_texts() -> List[Tuple[str, Answers]]:
    """Of each text the text itself, and by command the status and the output."""
    return list(_rows())
