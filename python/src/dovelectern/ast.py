"""The nodes of a tree, by the names that Fluent's own tools for Python give them.

Nodes are compared by their fields, without their spans. A span counts characters of the text from 0, as indices of a
str; what the library gives no place of has `None`.
"""
import re
from copy import deepcopy
from dataclasses import dataclass, field, fields
from typing import Any, Callable, Dict, Iterable, List, Optional, TypeVar, Union

from ._collection import no_collection

Node = TypeVar("Node", bound="BaseNode")


@dataclass(unsafe_hash=True)
class Span:
    """From `start` up to `end`."""

    __slots__ = ("start", "end")
    start: int
    end: int


class BaseNode:
    """What every node can do."""

    def clone(self: Node) -> Node:
        """A copy that shares nothing with this node."""
        with no_collection():
            copy: Node = copied(self)
        return copy

    def equals(self, other: object, ignored_fields: Iterable[str] = ("span",)) -> bool:
        """Whether the other is a node of the same class whose fields are equal, those aside that are named."""
        return _equal(self, other, frozenset(ignored_fields))


def field_names(node: Any) -> List[str]:
    """The names of the fields of a node, in order."""
    return [it.name for it in fields(node)]


_PLAIN = frozenset({str, int, bool, type(None)})


def copied(value: Any, change: Optional[Callable[[Any], None]] = None) -> Any:
    """A copy that shares nothing with the value, after the change was made to the copy of each node in it."""
    kind = type(value)
    if kind is list:
        return [copied(item, change) for item in value]
    if kind is Span:
        return Span(value.start, value.end)
    if not isinstance(value, BaseNode):
        return deepcopy(value)
    copy = kind.__new__(kind)
    held = copy.__dict__
    for name, below in value.__dict__.items():
        held[name] = below if type(below) in _PLAIN else copied(below, change)
    if change is not None:
        change(copy)
    return copy


def _equal(one: object, other: object, ignored: "frozenset[str]") -> bool:
    if isinstance(one, BaseNode):
        if type(one) is not type(other):
            return False
        names = (name for name in field_names(one) if name not in ignored)
        return all(_equal(getattr(one, name), getattr(other, name), ignored) for name in names)
    if isinstance(one, list) and isinstance(other, list):
        return len(one) == len(other) and all(_equal(a, b, ignored) for a, b in zip(one, other))
    return one == other


def _span() -> Optional[Span]:
    result: Optional[Span] = field(default=None, compare=False, repr=False)
    return result


class SyntaxNode(BaseNode):
    """A node that stands in a text."""

    span: Optional[Span]


@dataclass
class Identifier(SyntaxNode):
    name: str
    span: Optional[Span] = _span()


@dataclass
class TextElement(SyntaxNode):
    value: str
    span: Optional[Span] = _span()


class Expression(SyntaxNode):
    """What stands in braces."""


@dataclass
class Placeable(SyntaxNode):
    expression: "PlaceableExpression"
    span: Optional[Span] = _span()


PatternElement = Union[TextElement, Placeable]


@dataclass
class Pattern(SyntaxNode):
    """A value. That of a message, a term or an attribute has a span: from directly behind the `=` to its end, with the
    blank lines directly behind it."""

    elements: List[PatternElement] = field(default_factory=list)
    span: Optional[Span] = _span()

    @classmethod
    def from_text(cls, text: str) -> "Pattern":
        """The pattern of a text without placeables, with a text element for each line: line ends are LF or CRLF."""
        return cls([*text_elements(text.replace("\r\n", "\n"))])


def text_elements(text: str) -> List[TextElement]:
    """A text element for each line, with its LF."""
    return [TextElement(line) for line in re.findall(r"[^\n]*\n|[^\n]+", text)]


_ESCAPE = re.compile(r"\\(?:([\\\"])|u([0-9a-fA-F]{4})|U([0-9a-fA-F]{6}))")


def _unescaped(match: "re.Match[str]") -> str:
    if match[1]:
        return match[1]
    code = int(match[2] or match[3], 16)
    return chr(code) if code < 0xD800 or 0xE000 <= code < 0x110000 else "\ufffd"


@dataclass
class StringLiteral(Expression):
    """A string as it stands between its quotes, with its escapes."""

    value: str
    span: Optional[Span] = _span()

    def parse(self) -> Dict[str, str]:
        """The string that is meant, at `value`: a surrogate, or what is no character, is U+FFFD."""
        return {"value": _ESCAPE.sub(_unescaped, self.value)}


@dataclass
class NumberLiteral(Expression):
    """A number as it stands."""

    value: str
    span: Optional[Span] = _span()

    def parse(self) -> Dict[str, Union[float, int]]:
        """The number at `value`, and at `precision` how many digits it has after its point."""
        return {"value": float(self.value), "precision": len(self.value.partition(".")[2])}


@dataclass
class MessageReference(Expression):
    id: Identifier
    attribute: Optional[Identifier] = None
    span: Optional[Span] = _span()


@dataclass
class NamedArgument(SyntaxNode):
    name: Identifier
    value: "InlineExpression"
    span: Optional[Span] = _span()


@dataclass
class CallArguments(SyntaxNode):
    positional: List["InlineExpression"] = field(default_factory=list)
    named: List[NamedArgument] = field(default_factory=list)
    span: Optional[Span] = _span()


@dataclass
class TermReference(Expression):
    id: Identifier
    attribute: Optional[Identifier] = None
    arguments: Optional[CallArguments] = None
    span: Optional[Span] = _span()


@dataclass
class VariableReference(Expression):
    id: Identifier
    span: Optional[Span] = _span()


@dataclass
class FunctionReference(Expression):
    id: Identifier
    arguments: CallArguments = field(default_factory=CallArguments)
    span: Optional[Span] = _span()


InlineExpression = Union[
    StringLiteral, NumberLiteral, MessageReference, TermReference, VariableReference, FunctionReference, Placeable
]


@dataclass
class Variant(SyntaxNode):
    key: Union[Identifier, NumberLiteral]
    value: Pattern
    default: bool = False
    span: Optional[Span] = _span()


@dataclass
class SelectExpression(Expression):
    selector: InlineExpression
    variants: List[Variant] = field(default_factory=list)
    span: Optional[Span] = _span()


PlaceableExpression = Union[InlineExpression, SelectExpression]


@dataclass
class Attribute(SyntaxNode):
    id: Identifier
    value: Pattern
    span: Optional[Span] = _span()


class Entry(SyntaxNode):
    """What a resource is made of."""


@dataclass
class BaseComment(Entry):
    """A comment: its lines with LF between them, without their signs."""

    content: str = ""
    span: Optional[Span] = _span()


@dataclass
class Comment(BaseComment):
    """`#`"""


@dataclass
class GroupComment(BaseComment):
    """`##`"""


@dataclass
class ResourceComment(BaseComment):
    """`###`"""


@dataclass
class Message(Entry):
    id: Identifier
    value: Optional[Pattern] = None
    attributes: List[Attribute] = field(default_factory=list)
    comment: Optional[Comment] = None
    span: Optional[Span] = _span()


@dataclass
class Term(Entry):
    id: Identifier
    value: Pattern
    attributes: List[Attribute] = field(default_factory=list)
    comment: Optional[Comment] = None
    span: Optional[Span] = _span()


@dataclass
class Annotation(SyntaxNode):
    """Why a stretch was refused: the kind of the error as `code`, and the error's message and place."""

    code: str
    arguments: List[str] = field(default_factory=list)
    message: str = ""
    span: Optional[Span] = _span()


@dataclass
class Junk(Entry):
    """A stretch that was refused."""

    content: str
    annotations: List[Annotation] = field(default_factory=list)
    span: Optional[Span] = _span()


AnyEntry = Union[Message, Term, Comment, GroupComment, ResourceComment, Junk]


@dataclass
class Resource(SyntaxNode):
    body: List[AnyEntry] = field(default_factory=list)
    span: Optional[Span] = _span()
