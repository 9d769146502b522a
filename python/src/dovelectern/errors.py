"""What went wrong, and where."""
from dataclasses import dataclass
from typing import List, Optional

from .ast import Span


@dataclass(frozen=True)
class Cause:
    """A mistake from which an error comes. Lines and columns count from 1; spans count characters from 0."""

    kind: Optional[str]
    """What the grammar wanted in an attribute that is refused: a name as of an `Error`; `None` for all other causes."""
    message: str
    """What the mistake is, and perhaps what to do."""
    line: int
    column: int
    """The column in characters."""
    column_utf16: int
    """The column in UTF-16 units, as editors count."""
    column_bytes: int
    """The column in bytes of UTF-8."""
    span: Span
    """The place."""

    def __str__(self) -> str:
        return f"{self.line}:{self.column}: {self.message}"


@dataclass(frozen=True)
class Error:
    """A syntax error of a text. Lines and columns count from 1; spans count characters from 0, as indices of a str."""

    kind: str
    """What the grammar wanted: one of 21 names, as `ExpectedToken`."""
    message: str
    """The same in a sentence."""
    line: int
    column: int
    """The column in characters."""
    column_utf16: int
    """The column in UTF-16 units, as editors count."""
    column_bytes: int
    """The column in bytes of UTF-8."""
    span: Span
    """The place."""
    junk: Span
    """The stretch that was refused for it."""
    cause: Optional[Cause] = None
    """The mistake from which it comes; `None` where none is known."""

    def __str__(self) -> str:
        return f"{self.line}:{self.column}: {self.message}"


@dataclass(frozen=True)
class Place:
    """A name in one of several texts. Lines and columns count from 1; spans count characters from 0."""

    text: int
    """The number of the text, from 0."""
    line: int
    column: int
    """The column in characters."""
    column_utf16: int
    """The column in UTF-16 units, as editors count."""
    column_bytes: int
    """The column in bytes of UTF-8."""
    span: Span
    """The name, without the `-` of a term, the `.` of an attribute and the `$` of a variable."""

    def __str__(self) -> str:
        return f"{self.line}:{self.column}"


@dataclass(frozen=True)
class Finding:
    """A mistake between names: of one text, of several, or of a text beside its reference."""

    kind: str
    """Which mistake it is: one of 17 names, as `undefined-term`."""
    severity: str
    """`error`, which users see, or `warning`, which may be meant so."""
    message: str
    """The same in a sentence."""
    name: str
    """The name that it is about, as its place has it."""
    place: Optional[Place]
    """Where it is; `None` where a text has no place for what it lacks."""
    other: Optional[Place]
    """The place that it speaks of: of a name or a key that is given twice the first one, and where the reference has it."""

    def __str__(self) -> str:
        before = f"{self.place}: " if self.place is not None else ""
        return f"{before}{self.severity}[{self.kind}]: {self.message}"


@dataclass(frozen=True)
class Uncanonical:
    """The first entry of a tree that is not canonical."""

    entry: int
    """Its number, from 0."""
    rule: str
    """The first rule that it breaks: one of 29 names, as `BraceInText`."""

    def __str__(self) -> str:
        return f"body[{self.entry}]: {self.rule}"


class FluentError(ValueError):
    """A text or a tree that can't be taken."""


class SyntaxErrors(FluentError):
    """The text has syntax errors: all of them, in order, in `errors`."""

    def __init__(self, errors: List[Error], path: Optional[str] = None) -> None:
        self.errors = errors
        self.path = path
        place = f"{path}:{errors[0]}" if path is not None else str(errors[0])
        more = f" (and {len(errors) - 1} more)" if len(errors) > 1 else ""
        super().__init__(place + more)


class TooDeep(FluentError):
    """The text, or the tree, nests more deeply than was allowed."""


class NoTree(FluentError):
    """What was to be written is no tree."""


class ReadsOtherwise(FluentError):
    """The text of a tree, or of an edit, would be read as another tree.

    `rule` names the first rule of canonical trees that what is new breaks, as `BraceInText`; `None` where it breaks
    none.
    """

    def __init__(self, message: str, rule: Optional[str] = None) -> None:
        self.rule = rule
        super().__init__(message if rule is None else f"{message}: it breaks the rule {rule}")


class NotFound(FluentError):
    """No message or term has the name, or it has no value."""


class NoValue(NotFound):
    """The message or term has no value, or no such attribute."""


class Overlap(FluentError):
    """Two of several edits change the same stretch."""


class NotOneEntry(FluentError):
    """What is new is not exactly one entry, or one value, without errors."""


class PartHasErrors(NotOneEntry):
    """What is new has syntax errors."""
