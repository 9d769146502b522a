"""What the package does."""
import os
from functools import lru_cache
from typing import Callable, Dict, Iterable, List, Optional, Tuple, TypeVar, Union

from . import _findings, _library, _places, _reading, _reading_back, _spans, _writing, ast
from ._collection import no_collection
from ._library import NESTING, Text
from .ast import Span
from .errors import Cause, Error, Finding, NoTree, ReadsOtherwise, SyntaxErrors, TooDeep, Uncanonical
from .visitor import split

Answer = TypeVar("Answer")
Path = Union[str, "os.PathLike[str]", bytes, "os.PathLike[bytes]"]


def parse(text: Text, *, nesting: int = NESTING, with_spans: bool = True,
          element_spans: bool = False) -> ast.Resource:
    """The tree of a text, by edition one of the grammar. What was refused is a `Junk`, with its error as annotation.

    `TooDeep`: placeables and argument lists nest more than `nesting` deep, or, where elements are to have spans, more
    than Python's recursion takes.
    `UnicodeDecodeError`: bytes that are not UTF-8. `UnicodeEncodeError`: a str with a surrogate. `TypeError`: no text.
    Without `with_spans` no node has a span; with `element_spans` each node within a value has one too.
    """
    data, depth = _library.as_bytes(text), _library.as_nesting(nesting)
    try:
        with no_collection():
            tree, has_errors = _reading.resource(data, depth, with_spans, element_spans)
            if has_errors:
                _annotate(tree, _errors(data, 1, depth, with_causes=False), with_spans)
            if with_spans:
                _spans.place(tree, data.decode(), element_spans)
            return tree
    except RecursionError:
        raise TooDeep("the text nests more deeply than Python's recursion takes") from None


def _annotate(tree: ast.Resource, errors: List[Error], with_spans: bool) -> None:
    """Tells of each junk its error; they are as many, in the same order."""
    junks = (it for it in tree.body if isinstance(it, ast.Junk))
    for junk, error in zip(junks, errors):
        junk.annotations.append(ast.Annotation(error.kind, [], error.message, error.span if with_spans else None))


def serialize(resource: ast.Resource, *, strict: bool = True) -> str:
    """The text of a tree, without its junk.

    `ReadsOtherwise` where `parse` would not return the tree for the text, apart from junk and from where successive
    texts are divided: a text with a brace, a name that is none. With `strict=False` that is not asked.
    `TypeError` where a field holds something else than the classes of `dovelectern.ast` say, with the way to it.
    `TooDeep`: the tree nests more deeply than the library takes trees, which is some 20 selects in one another.
    """
    return _serialized(resource, strict, None)


def _serialized(resource: ast.Resource, strict: bool, alone: Optional[str]) -> str:
    """The text of a tree, and what its only entry is called where that is not a part of a tree."""
    written, text = _by_json(resource, lambda written: _library.answer(_library.FROM_JSON, written, NESTING)[0])
    if strict and not _is_read_back(resource, text):
        changed = _reading_back.first_changed(written, _library.answer(_library.JSON, text.encode(), NESTING)[0])
        if changed is not None:
            entry = ast.Resource([resource.body[changed]])
            # successive texts count as one, and a rule that only says so is none that changes the entry
            broken = first_uncanonical(split(entry)) or first_uncanonical(entry)
            what = alone or f"body[{changed}]"
            raise ReadsOtherwise(f"{what} would be read otherwise than as it is", broken and broken.rule)
    return text


def _is_read_back(resource: ast.Resource, text: str) -> bool:
    """Whether the text is read as the very tree, apart from junk. Most trees are; for others it is asked what differs."""
    with no_collection():
        read, _ = _reading.resource(text.encode(), NESTING, False, False)
        return read.body == [it for it in resource.body if not isinstance(it, ast.Junk)]


def _by_json(resource: ast.Resource, call: Callable[[bytes], Answer]) -> Tuple[str, Answer]:
    """The JSON of a tree, and what the library answers for it."""
    try:
        with no_collection():
            written = _writing.json_of(resource)
        return written, call(written.encode())
    except RecursionError:
        raise TooDeep("the tree nests more deeply than Python's recursion takes") from None
    except NoTree:
        # tells what is wrong, and where
        _writing.value_of(resource)
        raise


def serialize_entry(entry: ast.AnyEntry, *, strict: bool = True) -> str:
    """The text of one entry, as `serialize` writes it alone."""
    return _serialized(ast.Resource([entry]), strict, "the entry")


def value_text(value: ast.Pattern) -> str:
    """The text of a value, as it is after a `=`."""
    entry = ast.Message(ast.Identifier("a"), value)
    return _serialized(ast.Resource([entry]), True, "the value")[len("a ="):]


def is_canonical(resource: ast.Resource, *, edition: int = 1) -> bool:
    """Whether the tree is canonical: the text that `serialize` writes has no error and is read, by this edition, as this
    tree, text by text. It has no junk, and a text of its own for each line. It raises what `serialize` raises, but
    `ReadsOtherwise`; `ValueError`: no such edition.
    """
    number = as_edition(edition)
    return _by_json(resource, lambda written: _library.is_canonical(written, number))[1]


def first_uncanonical(resource: ast.Resource, *, edition: int = 1) -> Optional[Uncanonical]:
    """The first entry of the tree that is not canonical, and the rule that it breaks; `None` where all are. It raises
    what `is_canonical` raises.
    """
    number = as_edition(edition)
    _, found = _by_json(resource, lambda written: _library.first_uncanonical(written, number))
    return Uncanonical(*found) if found is not None else None


def check(text: Text, *, edition: int = 1, nesting: int = NESTING) -> List[Error]:
    """The syntax errors of a text, in order. What it raises is what `parse` raises; `ValueError`: no such edition."""
    return _errors(_library.as_bytes(text), as_edition(edition), _library.as_nesting(nesting))


def format(text: Text, *, edition: int = 1, comments: bool = True, drop_junk: bool = False,
           nesting: int = NESTING) -> str:
    """A text in its normal form; without comments if `comments` is false, which is for edition 1.

    `SyntaxErrors` where it has syntax errors. With `drop_junk` what was refused is left out instead. For the rest it
    raises what `check` raises.
    """
    data, depth = _library.as_bytes(text), _library.as_nesting(nesting)
    if as_edition(edition) == 2 and not comments:
        raise ValueError("texts without comments are written by edition 1 alone")
    command = _library.FORMAT_TWO if edition == 2 else _library.FORMAT if comments else _library.RUNTIME
    written, has_errors = _library.answer(command, data, depth)
    if has_errors and not drop_junk:
        raise SyntaxErrors(_errors(data, edition, depth))
    return written


def lint(texts: Union[Text, Iterable[Text]], *, edition: int = 1, nesting: int = NESTING) -> List[Finding]:
    """The mistakes between names in a text, or in the texts of one language, which may refer to one another; in order.

    What was refused defines nothing, and no syntax error is told: `check` tells those. It raises what `check` raises.
    """
    given = [texts] if isinstance(texts, (str, bytes, bytearray, memoryview)) else list(texts)
    data = [_library.as_bytes(text) for text in given]
    return _findings.of_one_language(data, as_edition(edition), _library.as_nesting(nesting))


def compare(reference: Text, other: Text, *, edition: int = 1, nesting: int = NESTING) -> List[Finding]:
    """What a text, as a translation, lacks of its reference, in the reference's order; and behind it what is obsolete
    or unknown in the text, in its own order. It raises what `check` raises.

    The number of the reference is 0, and that of the other text 1.
    """
    one, two = _library.as_bytes(reference), _library.as_bytes(other)
    return _findings.between(one, two, as_edition(edition), _library.as_nesting(nesting))


def parse_file(path: Path, *, nesting: int = NESTING, with_spans: bool = True,
               element_spans: bool = False) -> ast.Resource:
    """The tree of a file. Beside what `parse` raises, `OSError`; what is wrong with the text tells the file too."""
    with _File(path) as data:
        return parse(data, nesting=nesting, with_spans=with_spans, element_spans=element_spans)


def check_file(path: Path, *, edition: int = 1, nesting: int = NESTING) -> List[Error]:
    """The syntax errors of a file. It raises what `check` raises, and `OSError`."""
    with _File(path) as data:
        return check(data, edition=edition, nesting=nesting)


def format_file(path: Path, *, edition: int = 1, comments: bool = True, drop_junk: bool = False,
                nesting: int = NESTING) -> str:
    """A file's text in its normal form; nothing is written to it. It raises what `format` raises, and `OSError`."""
    with _File(path) as data:
        return format(data, edition=edition, comments=comments, drop_junk=drop_junk, nesting=nesting)


class _File:
    """The bytes of a file; what is raised over them is told with its path."""

    def __init__(self, path: Path) -> None:
        self.path = os.fsdecode(path)

    def __enter__(self) -> bytes:
        with open(self.path, "rb") as file:
            return file.read()

    def __exit__(self, kind: object, error: object, trace: object) -> None:
        if isinstance(error, SyntaxErrors):
            raise SyntaxErrors(error.errors, self.path) from None
        if isinstance(error, TooDeep):
            raise TooDeep(f"{self.path}: {error}") from None
        if isinstance(error, UnicodeDecodeError):
            raise UnicodeDecodeError(error.encoding, error.object, error.start, error.end,
                                     f"{error.reason} in {self.path}") from None


def as_edition(edition: int) -> int:
    if edition not in (1, 2):
        raise ValueError(f"an edition is 1 or 2, not {edition!r}")
    return int(edition)


_kind_name = lru_cache(maxsize=None)(_library.kind_name)


def _errors(data: bytes, edition: int, nesting: int, with_causes: bool = True) -> List[Error]:
    rows = _library.errors(data, edition, nesting)
    if not rows:
        return []
    messages = _library.messages(data, edition, nesting)
    at = _places.in_characters(data, (place for row in rows for place in row[4:8]))
    causes = _causes(data, edition, nesting) if with_causes else [None] * len(rows)
    return [_error(row, message, (Span(at[row.start], at[row.end]), Span(at[row.junk_start], at[row.junk_end])), cause)
            for row, message, cause in zip(rows, messages, causes)]


def _error(row: _library.ErrorRow, message: str, spans: Tuple[Span, Span], cause: Optional[Cause]) -> Error:
    columns = row.column_characters, row.column_utf16, row.column
    return Error(_kind_name(row.kind), message, row.line, *columns, *spans, cause)


def _causes(data: bytes, edition: int, nesting: int) -> List[Optional[Cause]]:
    """The cause of each syntax error; the library gives them in the order of the errors."""
    rows = _library.causes(data, edition, nesting)
    messages = _library.cause_messages(data, edition, nesting)
    at = _places.in_characters(data, (place for row in rows for place in row[4:6]))
    return [_cause(row, message, at) if row.line else None for row, message in zip(rows, messages)]


def _cause(row: _library.CauseRow, message: str, at: Dict[int, int]) -> Cause:
    columns = row.column_characters, row.column_utf16, row.column
    kind = _kind_name(row.kind) if row.kind else None
    return Cause(kind, message, row.line, *columns, Span(at[row.start], at[row.end]))
