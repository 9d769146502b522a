"""The calls of libfluent, over bytes."""
import ctypes
import operator
import os
import struct
from typing import Any, List, NamedTuple, Optional, Sequence, Tuple, Union

from .errors import NotFound, NotOneEntry, NoTree, NoValue, Overlap, PartHasErrors, ReadsOtherwise, TooDeep

Text = Union[str, bytes, bytearray, memoryview]

NESTING = 100
"""How many placeables and argument lists may be open at once, if nothing else is said."""
GREATEST_NESTING = 1000
"""What may be asked for: a stack of 8 MB does with more than twice that."""

FORMAT, RUNTIME, JSON, FORMAT_TWO, FROM_JSON = 1, 2, 3, 5, 6
_CLEAN, _SYNTAX_ERRORS, _WRONG_ARGUMENT, _NOT_UTF8, _NO_MEMORY, _TOO_SMALL, _TOO_DEEP, _NO_TREE = range(8)
_NOT_FOUND, _NOT_ONE_ENTRY, _READS_OTHERWISE, _NO_VALUE, _PART_HAS_ERRORS, _OVERLAP = range(8, 14)
_FIRST_RULE = 101


class ErrorRow(NamedTuple):
    """An error's places, in bytes; its column also in UTF-16 units and in characters."""

    line: int
    column: int
    column_utf16: int
    column_characters: int
    start: int
    end: int
    junk_start: int
    junk_end: int
    kind: int


class CauseRow(NamedTuple):
    """A cause's places, in bytes; its column also in UTF-16 units and in characters. Where none is known all are 0."""

    line: int
    column: int
    column_utf16: int
    column_characters: int
    start: int
    end: int
    kind: int


class NameRow(NamedTuple):
    """A name's places, in bytes; its column also in UTF-16 units and in characters. `owner` is the number of the row of
    the message or term, whose stretch is `entry_start` up to `entry_end`."""

    line: int
    column: int
    column_utf16: int
    column_characters: int
    start: int
    end: int
    owner: int
    entry_start: int
    entry_end: int
    kind: int


class Edit(NamedTuple):
    """An edit of several: the name of the entry, that of the attribute, what is new, and the number of what is done."""

    name: bytes
    attribute: bytes
    part: bytes
    kind: int


class Nodes(NamedTuple):
    """Rows of nodes: where the name or the text of each begins and ends, in bytes, how many nodes it holds, and the
    number of what it is."""

    starts: List[int]
    ends: List[int]
    held: List[int]
    kinds: List[int]


class FindingRow(NamedTuple):
    """What is found at a name, and its places, in bytes; its column also in UTF-16 units and in characters."""

    text: int
    line: int
    column: int
    column_utf16: int
    column_characters: int
    start: int
    end: int
    other_text: int
    other_start: int
    other_end: int
    kind: int
    severity: int


# struct ftl_error, ftl_cause, ftl_name, ftl_node and ftl_finding: numbers of type size_t, up to two of 32 bits, and
# what is added for the next row
ROW = struct.Struct("@8NI0N")
CAUSE_ROW = struct.Struct("@6NI0N")
NAME_ROW = struct.Struct("@9NI0N")
NODE_ROW = struct.Struct("@3NI0N")
FINDING_ROW = struct.Struct("@10N2I0N")


class _Text(ctypes.Structure):
    """struct ftl_text."""

    _fields_ = [("text", ctypes.c_char_p), ("text_len", ctypes.c_size_t)]


class _Edit(ctypes.Structure):
    """struct ftl_edit."""

    _fields_ = [("name", ctypes.c_char_p), ("name_len", ctypes.c_size_t), ("attribute", ctypes.c_char_p),
                ("attribute_len", ctypes.c_size_t), ("part", ctypes.c_char_p), ("part_len", ctypes.c_size_t),
                ("kind", ctypes.c_uint32)]


def _load() -> ctypes.CDLL:
    """The library: that beside this file, or that at the path of DOVELECTERN_LIBRARY."""
    beside = os.path.join(os.path.dirname(os.path.abspath(__file__)), "libfluent.so")
    path = os.environ.get("DOVELECTERN_LIBRARY") or beside
    try:
        library = ctypes.CDLL(path)
    except OSError as error:
        raise ImportError(f"dovelectern has no library for this machine: {error}") from error
    number, size = ctypes.c_uint32, ctypes.c_size_t
    text, written = [ctypes.c_char_p, size], [ctypes.c_void_p, size, ctypes.POINTER(size)]
    calls: List[Tuple[str, List[Any]]] = [
        ("ftl_answer", [size, *text]), ("ftl_errors", [size, *text]), ("ftl_nodes", [size, *text]),
        ("ftl_names", [size, *text]), ("ftl_edit_all", [size, *text, ctypes.POINTER(_Edit), size]),
        ("ftl_error_messages", [size, *text]),
        ("ftl_causes", [size, *text]), ("ftl_cause_messages", [size, *text]),
        ("ftl_findings", [size, ctypes.POINTER(_Text), size]), ("ftl_comparison", [size, *text, *text]),
        ("ftl_kind_name", []), ("ftl_finding_kind_name", []), ("ftl_status_name", []),
        ("ftl_remove", [size, *text, *text]), ("ftl_set_attribute", [size, *text, *text, *text, *text]),
        *((name, [size, *text, *text, *text]) for name in ("ftl_set_value", "ftl_replace", "ftl_insert")),
    ]
    for name, read in calls:
        call = getattr(library, name)
        call.restype = number
        call.argtypes = [number, *read, *written]
    for call in (library.ftl_is_canonical, library.ftl_first_uncanonical):
        call.restype = number
        call.argtypes = [number, *text, ctypes.POINTER(size)]
    return library


_library = _load()


def as_bytes(text: Text) -> bytes:
    """The bytes of a text, in UTF-8."""
    if isinstance(text, bytes):
        return text
    if isinstance(text, str):
        return text.encode()
    if isinstance(text, (bytearray, memoryview)):
        return bytes(text)
    raise TypeError(f"a text is str, bytes, bytearray or memoryview, not {type(text).__name__}")


def as_nesting(nesting: int) -> int:
    depth = operator.index(nesting)
    if not 0 <= depth <= GREATEST_NESTING:
        raise ValueError(f"nesting is from 0 to {GREATEST_NESTING}, not {depth}")
    return depth


def _items(name: str, number: int, nesting: int, texts: Sequence[bytes], width: int, room: int,
           edits: Optional[Sequence[Edit]] = None) -> Tuple[memoryview, bool]:
    """The items that a call wrote, each of so many bytes, and whether a text has errors."""
    needed = ctypes.c_size_t()
    call = getattr(_library, name)
    given = _given(texts) if name == "ftl_findings" else [it for text in texts for it in (text, len(text))]
    if edits is not None:
        given += [(_Edit * len(edits))(*[_edit(it) for it in edits]), len(edits)]
    while True:
        # a type of an array for each length would take longer than most calls
        array = bytearray(width * room)
        front = ctypes.byref(ctypes.c_char.from_buffer(array))
        # the interpreter's lock is let go meanwhile
        status = call(number, nesting, *given, front, room, ctypes.byref(needed))
        if status == _TOO_SMALL:
            room = needed.value
        elif status in (_CLEAN, _SYNTAX_ERRORS):
            return memoryview(array)[:width * needed.value], status == _SYNTAX_ERRORS
        else:
            raise _refusal(name, number, nesting, texts, status)


def _given(texts: Sequence[bytes]) -> List[Any]:
    """The texts as an array, and how many they are."""
    return [(_Text * len(texts))(*[_Text(text, len(text)) for text in texts]), len(texts)]


def _edit(edit: Edit) -> _Edit:
    texts = (edit.name, edit.attribute, edit.part)
    return _Edit(*[it for text in texts for it in (text, len(text))], edit.kind)


def _refusal(name: str, number: int, nesting: int, texts: Sequence[bytes], status: int) -> Exception:
    """Why a call gave nothing."""
    if status == _NOT_UTF8:
        for text in texts:
            try:
                text.decode()
            except UnicodeDecodeError as error:
                return error
    if status == _NO_MEMORY:
        return MemoryError("the library was refused memory")
    if status == _TOO_DEEP:
        if number == FROM_JSON and name in ("ftl_answer", "ftl_is_canonical", "ftl_first_uncanonical"):
            return TooDeep("the tree nests more deeply than the library takes trees")
        which = "the text" if len(texts) == 1 else "one of the texts"
        which = "one of the texts" if name == "ftl_edit_all" else which
        return TooDeep(f"{which} nests placeables and argument lists more than {nesting} deep")
    if status == _NO_TREE:
        return NoTree("this spells no tree")
    if name == "ftl_edit_all":
        return _refusal_of_several(status)
    if status == _NOT_FOUND:
        return NotFound(f"no message or term is named {texts[1].decode()}")
    if status == _NO_VALUE:
        return NoValue(f"no message or term with {'such an attribute' if name == 'ftl_set_attribute' else 'a value'} is "
                       f"named {texts[1].decode()}")
    what = "value" if name in ("ftl_set_value", "ftl_set_attribute") else "entry"
    if status == _NOT_ONE_ENTRY:
        return NotOneEntry(f"the {what} is not exactly one")
    if status == _PART_HAS_ERRORS:
        return PartHasErrors(f"the {what} has syntax errors")
    if status == _READS_OTHERWISE or status >= _FIRST_RULE:
        return _reads_otherwise("the edit", status)
    return ValueError(f"{name} has no number {number}")


def _refusal_of_several(status: int) -> Exception:
    """Why none of several edits is made."""
    if status == _NOT_FOUND:
        return NotFound("no message or term has the name of one of the edits")
    if status == _NO_VALUE:
        return NoValue("what has the name of one of the edits has no value, or no such attribute")
    if status == _NOT_ONE_ENTRY:
        return NotOneEntry("what is new in one of the edits is not exactly one entry or value")
    if status == _PART_HAS_ERRORS:
        return PartHasErrors("what is new in one of the edits has syntax errors")
    if status == _OVERLAP:
        return Overlap("two of the edits change the same stretch")
    return _reads_otherwise("each edit", status)


def _reads_otherwise(what: str, status: int) -> Exception:
    rule = None if status == _READS_OTHERWISE else _name("ftl_status_name", status)
    return ReadsOtherwise(f"the new text would be read otherwise than as the text with {what} made", rule)


def answer(command: int, text: bytes, nesting: int) -> Tuple[str, bool]:
    """What the command writes for the text, and whether the text has syntax errors."""
    room = (8 if command == JSON else 2) * len(text) + 1024
    out, has_errors = _items("ftl_answer", command, nesting, [text], 1, room)
    return str(out, "utf-8"), has_errors


def errors(text: bytes, edition: int, nesting: int) -> List[ErrorRow]:
    """The syntax errors of the text, in order."""
    rows, _ = _items("ftl_errors", edition, nesting, [text], ROW.size, 8)
    return [ErrorRow(*numbers) for numbers in ROW.iter_unpack(rows)]


def messages(text: bytes, edition: int, nesting: int) -> List[str]:
    """The messages of the syntax errors of the text, in order."""
    return _lines("ftl_error_messages", text, edition, nesting)


def causes(text: bytes, edition: int, nesting: int) -> List[CauseRow]:
    """The causes of the syntax errors of the text, in the order of these."""
    rows, _ = _items("ftl_causes", edition, nesting, [text], CAUSE_ROW.size, 8)
    return [CauseRow(*numbers) for numbers in CAUSE_ROW.iter_unpack(rows)]


def cause_messages(text: bytes, edition: int, nesting: int) -> List[str]:
    """What the causes of the syntax errors of the text are, in order; empty where none is known."""
    return _lines("ftl_cause_messages", text, edition, nesting)


def _lines(call: str, text: bytes, edition: int, nesting: int) -> List[str]:
    """The lines that a call wrote for the text."""
    out, _ = _items(call, edition, nesting, [text], 1, 1024)
    return str(out, "utf-8").split("\n")[:-1]


def nodes(text: bytes, edition: int, nesting: int) -> Tuple[Nodes, bool]:
    """The nodes of the tree of the text, each before those that it holds, and whether the text has errors."""
    rows, has_errors = _items("ftl_nodes", edition, nesting, [text], NODE_ROW.size, 64 + len(text) // 8)
    numbers, kinds = rows.cast("N"), rows.cast("I")
    size = ctypes.sizeof(ctypes.c_size_t)
    width = NODE_ROW.size // size
    fields = [numbers[field::width].tolist() for field in range(3)]
    return Nodes(*fields, kinds[3 * size // 4::NODE_ROW.size // 4].tolist()), has_errors


def findings(texts: Sequence[bytes], edition: int, nesting: int) -> List[FindingRow]:
    """What is found in the texts of one language, in order."""
    rows, _ = _items("ftl_findings", edition, nesting, texts, FINDING_ROW.size, 16)
    return [FindingRow(*numbers) for numbers in FINDING_ROW.iter_unpack(rows)]


def comparison(reference: bytes, other: bytes, edition: int, nesting: int) -> List[FindingRow]:
    """What the other text lacks of the reference, and behind it what is obsolete or unknown there."""
    rows, _ = _items("ftl_comparison", edition, nesting, [reference, other], FINDING_ROW.size, 16)
    return [FindingRow(*numbers) for numbers in FINDING_ROW.iter_unpack(rows)]


def edited(call: str, texts: Sequence[bytes], edition: int, nesting: int) -> str:
    """The first of the texts with an edit made at the entry that the second names; the third is what is new."""
    room = 2 * sum(map(len, texts)) + 1024
    return str(_items(call, edition, nesting, texts, 1, room)[0], "utf-8")


def edited_all(text: bytes, edits: Sequence[Edit], edition: int, nesting: int) -> str:
    """The text with each edit made; they come in its order."""
    room = 2 * len(text) + sum(len(it.part) for it in edits) * 2 + 1024
    return str(_items("ftl_edit_all", edition, nesting, [text], 1, room, edits)[0], "utf-8")


def names(text: bytes, edition: int, nesting: int) -> List[NameRow]:
    """The names of the messages, terms and attributes of the text, in order."""
    rows, _ = _items("ftl_names", edition, nesting, [text], NAME_ROW.size, 64 + len(text) // 32)
    return [NameRow(*numbers) for numbers in NAME_ROW.iter_unpack(rows)]


def is_canonical(json: bytes, edition: int) -> bool:
    """Whether the tree that the JSON spells is canonical."""
    canonical = ctypes.c_size_t()
    status = _library.ftl_is_canonical(edition, json, len(json), ctypes.byref(canonical))
    if status != _CLEAN:
        raise _refusal("ftl_is_canonical", FROM_JSON, 0, [json], status)
    return canonical.value == 1


def first_uncanonical(json: bytes, edition: int) -> Optional[Tuple[int, str]]:
    """The number of the first entry that is not canonical, of the tree that the JSON spells, and the rule."""
    entry = ctypes.c_size_t()
    status = _library.ftl_first_uncanonical(edition, json, len(json), ctypes.byref(entry))
    if status == _CLEAN:
        return None
    if status < _FIRST_RULE:
        raise _refusal("ftl_first_uncanonical", FROM_JSON, 0, [json], status)
    return entry.value, _name("ftl_status_name", status)


def kind_name(kind: int) -> str:
    """The name of a kind of errors."""
    return _name("ftl_kind_name", kind)


def finding_kind_name(kind: int) -> str:
    """The name of a kind of findings."""
    return _name("ftl_finding_kind_name", kind)


def _name(call: str, kind: int) -> str:
    needed = ctypes.c_size_t()
    out = ctypes.create_string_buffer(64)
    status = getattr(_library, call)(kind, out, len(out), ctypes.byref(needed))
    if status == _NO_MEMORY:
        raise MemoryError("the library was refused memory")
    if status != _CLEAN:
        raise ValueError(f"no kind has the number {kind}")
    return out.raw[:needed.value].decode()
