"""Mistakes between names, out of the rows of the library. docs/LINT.md says of each kind when it is found."""
from bisect import bisect_right
from functools import lru_cache
from typing import Dict, List, Optional, Sequence

from . import _library, _places
from .ast import Span
from .errors import Finding, Place

_SEVERITIES = {1: "error", 2: "warning"}

# what is told of each kind; `line` is that of the first of two, or the reference's
_MESSAGES = {
    "defined-twice": "`{name}` is defined twice, first on line {line}",
    "attribute-twice": "the entry has the attribute `{name}` twice, first on line {line}",
    "variant-twice": "the select has the variant `{name}` twice, first on line {line}",
    "undefined-message": "no text defines the message `{name}`",
    "undefined-term": "no text defines the term `-{name}`",
    "undefined-attribute": "no text defines its attribute `{name}`",
    "undefined-value": "no text gives the message `{name}` a value",
    "cyclic-reference": "`{name}` leads back to this reference",
    "plural-category": "no number chooses the variant `{name}` in this language",
    "missing": "`{name}` of line {line} of the reference is missing",
    "missing-value": "the value of `{name}` of line {line} of the reference is missing",
    "missing-attribute": "the attribute `{name}` of line {line} of the reference is missing",
    "missing-reference": "a reference to `{name}`, as on line {line} of the reference, is missing",
    "obsolete": "the reference does not define `{name}`",
    "obsolete-value": "the reference gives `{name}` no value",
    "obsolete-attribute": "the reference does not define the attribute `{name}`",
    "obsolete-reference": "the reference's entry does not refer to `{name}`",
    "unknown-variable": "the reference does not use `${name}`",
    "unknown-function": "the reference does not call `{name}`",
}

_kind_name = lru_cache(maxsize=None)(_library.finding_kind_name)


def of_one_language(texts: Sequence[bytes], edition: int, nesting: int) -> List[Finding]:
    """What is found in the texts, which are one set."""
    rows = _library.findings(texts, edition, nesting)
    return _Found(texts, rows).findings() if rows else []


def between(reference: bytes, other: bytes, edition: int, nesting: int) -> List[Finding]:
    """What is found in the other text beside the reference."""
    rows = _library.comparison(reference, other, edition, nesting)
    return _Found([reference, other], rows).findings() if rows else []


def _finding(kind: str, severity: int, name: str, place: Optional[Place], other: Optional[Place]) -> Finding:
    message = _MESSAGES[kind].format(name=name, line=other.line if other is not None else 0)
    return Finding(kind, _SEVERITIES[severity], message, name, place, other)


class _Found:
    """The rows of what is found in texts."""

    def __init__(self, texts: Sequence[bytes], rows: List[_library.FindingRow]) -> None:
        self.texts, self.rows = texts, rows
        places: Dict[int, List[int]] = {}
        for row in rows:
            places.setdefault(row.text, []).extend((row.start, row.end))
            places.setdefault(row.other_text, []).extend((row.other_start, row.other_end))
        self.characters = {text: _places.in_characters(texts[text], its) for text, its in places.items()}
        self.lines: Dict[int, List[int]] = {}

    def findings(self) -> List[Finding]:
        return [self._finding(row) for row in self.rows]

    def _finding(self, row: _library.FindingRow) -> Finding:
        kind = _kind_name(row.kind)
        name = self.texts[row.text][row.start:row.end].decode()
        columns = row.column_characters, row.column_utf16, row.column
        place = Place(row.text, row.line, *columns, self._span(row.text, row.start, row.end))
        if kind.startswith("missing"):
            # the text that lacks it has no place for it
            return _finding(kind, row.severity, name, None, place)
        other = self._place(row.other_text, row.other_start, row.other_end) if row.other_end else None
        return _finding(kind, row.severity, name, place, other)

    def _span(self, text: int, start: int, end: int) -> Span:
        at = self.characters[text]
        return Span(at[start], at[end])

    def _place(self, text: int, start: int, end: int) -> Place:
        """A place that the library gives in bytes alone."""
        if text not in self.lines:
            self.lines[text] = _places.line_starts(self.texts[text])
        starts = self.lines[text]
        line = bisect_right(starts, start)
        before = self.texts[text][starts[line - 1]:start]
        columns = _places.characters(before) + 1, _places.utf16_units(before) + 1, len(before) + 1
        return Place(text, line, *columns, self._span(text, start, end))
