"""Fluent Translation Lists in Python, by ctypes over libfluent.so.

    library = Fluent("libfluent.so")
    library.answer("format", b"key=value\n")      # (b"key = value\n", False)
    library.errors(b"bro ken\n")                  # [Error(line=1, column=5, ..)]
    library.causes(b"key =\n\t.a = b\n")         # [Cause(line=2, column=1, ..)]
    library.names(b"key = value\n    .a = b\n")   # [Name(..), Name(..)]
    library.values(b"key = value\n    .a = b\n")  # [Value(start=5, end=12), Value(start=20, end=23)]
    library.nodes(b"a = b\n")                     # [Node(start=0, end=1, held=1, kind=1), Node(..), Node(..)]
    library.findings([b"a = { b }\n"])            # [Finding(text=0, line=1, column=7, ..)]
    library.comparison(b"a = A\n", b"b = B\n")    # [Finding(..), Finding(..)]
    library.edited("ftl_set_attribute", b"key =\n    .a = b\n", b"key", b"a", b"c")  # b"key =\n    .a = c\n"
"""
import collections
import ctypes

COMMANDS = {"check": 0, "format": 1, "runtime": 2, "json": 3, "check-two": 4, "format-two": 5, "from-json": 6}
NESTING = 100
CLEAN, SYNTAX_ERRORS, WRONG_ARGUMENT, NOT_UTF8, NO_MEMORY, TOO_SMALL, TOO_DEEP, NO_TREE = range(8)


class TooDeep(ValueError):
    """The text nests more deeply than was allowed."""


class NoTree(ValueError):
    """The text is no JSON, or JSON that spells no tree."""


class NotEdited(ValueError):
    """An edit that is not made, by the name of its status, as NotFound."""


def _record(name, fields, last):
    """A C struct of numbers of type size_t and last ones of 32 bits, and a tuple with its names."""
    types = [(field, ctypes.c_size_t) for field in fields] + [(field, ctypes.c_uint32) for field in last]
    return type(f"_{name}", (ctypes.Structure,), {"_fields_": types}), collections.namedtuple(name, fields + last)


_PLACE = ["line", "column", "column_utf16", "column_characters", "start", "end"]
_ERROR, Error = _record("Error", [*_PLACE, "junk_start", "junk_end"], ["kind"])
_CAUSE, Cause = _record("Cause", _PLACE, ["kind"])
_NAME, Name = _record("Name", [*_PLACE, "owner", "entry_start", "entry_end"], ["kind"])
_VALUE, Value = _record("Value", ["start", "end"], [])
_NODE, Node = _record("Node", ["start", "end", "held"], ["kind"])
_FINDING, Finding = _record("Finding", ["text", *_PLACE, "other_text", "other_start", "other_end"],
                            ["kind", "severity"])


class _TEXT(ctypes.Structure):
    _fields_ = [("text", ctypes.c_char_p), ("text_len", ctypes.c_size_t)]


class Fluent:
    """The library at a path."""

    def __init__(self, path):
        library = ctypes.CDLL(str(path))
        self._calls = {}
        read = [ctypes.c_uint32, ctypes.c_size_t]
        text = [ctypes.c_char_p, ctypes.c_size_t]
        written = [ctypes.c_void_p, ctypes.c_size_t, ctypes.POINTER(ctypes.c_size_t)]
        for name, arguments in {
            "ftl_answer": [*read, *text], "ftl_errors": [*read, *text], "ftl_names": [*read, *text],
            "ftl_values": [*read, *text], "ftl_nodes": [*read, *text], "ftl_error_messages": [*read, *text],
            "ftl_causes": [*read, *text], "ftl_cause_messages": [*read, *text],
            "ftl_findings": [*read, ctypes.POINTER(_TEXT), ctypes.c_size_t],
            "ftl_comparison": [*read, *text, *text], "ftl_kind_name": read[:1], "ftl_finding_kind_name": read[:1],
            "ftl_status_name": read[:1], "ftl_remove": [*read, *text, *text],
            "ftl_set_attribute": [*read, *text, *text, *text, *text],
            **{name: [*read, *text, *text, *text] for name in ("ftl_set_value", "ftl_replace", "ftl_insert")},
        }.items():
            call = self._calls[name] = getattr(library, name)
            call.restype = ctypes.c_uint32
            call.argtypes = [*arguments, *written]

    def _items(self, name, arguments, kind, room):
        """The array that a call wrote, how many items of it, and whether a text has errors."""
        needed = ctypes.c_size_t()
        while True:
            array = (kind * room)()
            status = self._calls[name](*arguments, array, room, ctypes.byref(needed))
            if status == TOO_SMALL:
                room = needed.value
            elif status in (CLEAN, SYNTAX_ERRORS):
                return array, needed.value, status == SYNTAX_ERRORS
            elif status == NOT_UTF8:
                raise UnicodeDecodeError("utf-8", b"", 0, 0, "no UTF-8")
            elif status == NO_MEMORY:
                raise MemoryError
            elif status == TOO_DEEP:
                raise TooDeep
            elif status == NO_TREE:
                raise NoTree
            elif status > NO_TREE:
                raise NotEdited(self.status_name(status))
            else:
                raise ValueError(f"{name} has no {arguments[0]}")

    def _rows(self, name, arguments, kind, made, room):
        rows, count, _ = self._items(name, arguments, kind, room)
        return [made(*(getattr(row, field) for field in made._fields)) for row in rows[:count]]

    def _lines(self, name, arguments):
        out, length, _ = self._items(name, arguments, ctypes.c_char, 1024)
        return out.raw[:length].decode().split("\n")[:-1]

    def _name(self, call, kind):
        out, length, _ = self._items(call, [kind], ctypes.c_char, 64)
        return out.raw[:length].decode()

    def answer(self, command, text, nesting=NESTING):
        """What the command writes for the bytes, and whether they have syntax errors."""
        arguments = [COMMANDS[command], nesting, text, len(text)]
        out, length, has_errors = self._items("ftl_answer", arguments, ctypes.c_char, 2 * len(text) + 1024)
        return out.raw[:length], has_errors

    def errors(self, text, edition=1, nesting=NESTING):
        """The syntax errors of the bytes, in order."""
        return self._rows("ftl_errors", [edition, nesting, text, len(text)], _ERROR, Error, 8)

    def messages(self, text, edition=1, nesting=NESTING):
        """The messages of the syntax errors of the bytes, in order: each is one line."""
        return self._lines("ftl_error_messages", [edition, nesting, text, len(text)])

    def causes(self, text, edition=1, nesting=NESTING):
        """The causes of the syntax errors of the bytes, in the order of these; all 0 where none is known."""
        return self._rows("ftl_causes", [edition, nesting, text, len(text)], _CAUSE, Cause, 8)

    def cause_messages(self, text, edition=1, nesting=NESTING):
        """What the causes of the syntax errors of the bytes are: each is one line, empty where none is known."""
        return self._lines("ftl_cause_messages", [edition, nesting, text, len(text)])

    def kind_name(self, kind):
        """The name of a kind of errors."""
        return self._name("ftl_kind_name", kind)

    def names(self, text, edition=1, nesting=NESTING):
        """The names of the messages, terms and attributes of the bytes, in order."""
        return self._rows("ftl_names", [edition, nesting, text, len(text)], _NAME, Name, 64)

    def values(self, text, edition=1, nesting=NESTING):
        """Where the values of the names of the bytes stand, in the same order; 0 and 0 of a message without one."""
        return self._rows("ftl_values", [edition, nesting, text, len(text)], _VALUE, Value, 64)

    def nodes(self, text, edition=1, nesting=NESTING):
        """The nodes of the tree of the bytes, each before those that it holds; the kind of each is a number."""
        return self._rows("ftl_nodes", [edition, nesting, text, len(text)], _NODE, Node, 64)

    def findings(self, texts, edition=1, nesting=NESTING):
        """What is found in the texts, each of bytes, which are those of one language; in order."""
        array = (_TEXT * len(texts))(*((text, len(text)) for text in texts))
        return self._rows("ftl_findings", [edition, nesting, array, len(texts)], _FINDING, Finding, 8)

    def comparison(self, reference, other, edition=1, nesting=NESTING):
        """What the other text lacks of the reference, and behind it what is obsolete or unknown there."""
        arguments = [edition, nesting, reference, len(reference), other, len(other)]
        return self._rows("ftl_comparison", arguments, _FINDING, Finding, 8)

    def finding_kind_name(self, kind):
        """The name of a kind of findings."""
        return self._name("ftl_finding_kind_name", kind)

    def status_name(self, status):
        """The name of a status."""
        return self._name("ftl_status_name", status)

    def edited(self, call, text, *parts, edition=1, nesting=NESTING):
        """What an edit makes of the bytes: the call by its name, the name of an entry, and what else it takes."""
        arguments = [edition, nesting, *(it for part in (text, *parts) for it in (part, len(part)))]
        out, length, _ = self._items(call, arguments, ctypes.c_char, 2 * len(text) + 1024)
        return out.raw[:length]
