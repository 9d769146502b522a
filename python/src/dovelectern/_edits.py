"""Edits of a text: messages or terms changed, and all else as it is, byte for byte."""
from dataclasses import dataclass
from typing import Dict, Iterable, Optional, Sequence, Tuple, Union

from . import _library, ast
from ._calls import as_edition, serialize_entry, value_text
from ._library import NESTING, Text
from .errors import NotFound


def set_value(text: Text, name: str, value: Union[Text, ast.Pattern], *, edition: int = 1,
              nesting: int = NESTING) -> str:
    """The text with another value for the first message of that name, or the term, as `-brand`. A value is a pattern, or
    a text as it stands behind a `=`.

    `NotFound` where no message or term has the name, and `NoValue` where it has no value. `NotOneEntry` where the new
    value is not one, and `PartHasErrors` where it has errors. `ReadsOtherwise` where the new text would not be read as
    the text with that value and with the same errors, with the rule that the value breaks. For the rest it raises what
    `check` raises.
    """
    return _edited("ftl_set_value", [text, name, _value_text(value)], edition, nesting)


def set_attribute(text: Text, name: str, attribute: str, value: Union[Text, ast.Pattern], *, edition: int = 1,
                  nesting: int = NESTING) -> str:
    """The text with another value for the first attribute of that name, as `title`, of the first message of that name,
    or the term. It raises what `set_value` raises; `NoValue` where there is no such attribute.
    """
    return _edited("ftl_set_attribute", [text, name, attribute, _value_text(value)], edition, nesting)


def replace(text: Text, name: str, entry: Union[Text, ast.AnyEntry], *, edition: int = 1,
            nesting: int = NESTING) -> str:
    """The text with the entry in place of the first message or term of that name and of the comment before it. An entry
    is a node, or its text. It raises what `set_value` raises.
    """
    return _edited("ftl_replace", [text, name, _entry_text(entry)], edition, nesting)


def insert(text: Text, entry: Union[Text, ast.AnyEntry], *, before: Optional[str] = None, edition: int = 1,
           nesting: int = NESTING) -> str:
    """The text with the entry before the first message or term of that name and the comment before it; without a name,
    at the end. A line end or two come before it where it would be read otherwise without them. An entry is a node, or
    its text. It raises what `set_value` raises.
    """
    if before == "":
        raise NotFound("no message or term has no name")
    return _edited("ftl_insert", [text, before or "", _entry_text(entry)], edition, nesting)


def remove(text: Text, name: str, *, edition: int = 1, nesting: int = NESTING) -> str:
    """The text without the first message or term of that name, the comment before it and the blank lines after it. It
    raises what `set_value` raises.
    """
    return _edited("ftl_remove", [text, name], edition, nesting)


@dataclass(frozen=True)
class SetValue:
    """What `set_value` does, as one of several edits."""

    name: str
    value: Union[Text, ast.Pattern]


@dataclass(frozen=True)
class SetAttribute:
    """What `set_attribute` does, as one of several edits."""

    name: str
    attribute: str
    value: Union[Text, ast.Pattern]


@dataclass(frozen=True)
class Replace:
    """What `replace` does, as one of several edits."""

    name: str
    entry: Union[Text, ast.AnyEntry]


@dataclass(frozen=True)
class Insert:
    """What `insert` does, as one of several edits."""

    entry: Union[Text, ast.AnyEntry]
    before: Optional[str] = None


@dataclass(frozen=True)
class Remove:
    """What `remove` does, as one of several edits."""

    name: str


Edit = Union[SetValue, SetAttribute, Replace, Insert, Remove]


def edit_all(text: Text, edits: Iterable[Edit], *, edition: int = 1, nesting: int = NESTING) -> str:
    """The text with each edit made, in the time of one. Names are those of the text as it is, and the edits may come in
    any order; entries that are inserted at one place come in the order of their edits.

    `Overlap` where two edits change the same stretch; for the rest it raises what `set_value` raises.
    """
    data, number, depth = _library.as_bytes(text), as_edition(edition), _library.as_nesting(nesting)
    places = _Places(data, number, depth)
    given = [_library_edit(it) for it in edits]
    return _library.edited_all(data, sorted(given, key=places.of), number, depth)


_SET_VALUE, _SET_ATTRIBUTE, _REPLACE, _INSERT, _REMOVE = range(1, 6)
_TERM, _ATTRIBUTE = 2, 3


class _Places:
    """Where edits are in a text."""

    def __init__(self, text: bytes, edition: int, nesting: int) -> None:
        self.entries: Dict[bytes, int] = {}
        self.attributes: Dict[Tuple[int, bytes], int] = {}
        for row in _library.names(text, edition, nesting):
            name = text[row.start:row.end]
            if row.kind == _ATTRIBUTE:
                self.attributes.setdefault((row.entry_start, name), row.start)
            else:
                self.entries.setdefault((b"-" if row.kind == _TERM else b"") + name, row.entry_start)
        self.end = len(text) + 1

    def of(self, edit: _library.Edit) -> Tuple[int, int]:
        """The entry's place, and that within the entry, before which an insertion is."""
        entry = self.entries.get(edit.name, self.end)
        if edit.kind == _INSERT:
            return entry, -1
        return entry, self.attributes.get((entry, edit.attribute), 0) if edit.kind == _SET_ATTRIBUTE else 0


def _library_edit(edit: Edit) -> _library.Edit:
    parts: Tuple[Text, Text, Text, int]
    if isinstance(edit, SetValue):
        parts = (edit.name, b"", _value_text(edit.value), _SET_VALUE)
    elif isinstance(edit, SetAttribute):
        parts = (edit.name, edit.attribute, _value_text(edit.value), _SET_ATTRIBUTE)
    elif isinstance(edit, Replace):
        parts = (edit.name, b"", _entry_text(edit.entry), _REPLACE)
    elif isinstance(edit, Insert):
        if edit.before == "":
            raise NotFound("no message or term has no name")
        parts = (edit.before or b"", b"", _entry_text(edit.entry), _INSERT)
    elif isinstance(edit, Remove):
        parts = (edit.name, b"", b"", _REMOVE)
    else:
        raise TypeError(f"an edit is SetValue, SetAttribute, Replace, Insert or Remove, not {type(edit).__name__}")
    name, attribute, part, kind = parts
    return _library.Edit(_library.as_bytes(name), _library.as_bytes(attribute), _library.as_bytes(part), kind)


def _entry_text(entry: Union[Text, ast.AnyEntry]) -> Text:
    return serialize_entry(entry) if isinstance(entry, ast.BaseNode) else entry


def _value_text(value: Union[Text, ast.Pattern]) -> Text:
    return value_text(value) if isinstance(value, ast.Pattern) else value


def _edited(call: str, given: Sequence[Text], edition: int, nesting: int) -> str:
    data = [_library.as_bytes(it) for it in given]
    return _library.edited(call, data, as_edition(edition), _library.as_nesting(nesting))
