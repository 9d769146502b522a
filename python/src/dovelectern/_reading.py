"""Trees out of the library's rows of nodes.

A row comes before those of the nodes that it holds. So the rows are taken from the last to the first: what a node holds
is made when its own row comes, and no node is made twice or looked for.
"""
from itertools import accumulate
from operator import sub
from typing import Any, Callable, Dict, List, Optional, Set, Tuple

from . import _library, ast
from ._library import Nodes
from .ast import Identifier, Span

(_MESSAGE, _TERM, _COMMENT, _GROUP_COMMENT, _RESOURCE_COMMENT, _JUNK, _OWN_COMMENT, _LINE, _ATTRIBUTE, _PATTERN, _TEXT,
 _PLACEABLE, _SELECT, _VARIANT, _DEFAULT_VARIANT, _IDENTIFIER, _STRING, _NUMBER, _MESSAGE_REFERENCE, _TERM_REFERENCE,
 _VARIABLE, _FUNCTION, _ARGUMENTS, _NAMED) = range(1, 25)

# what has a span before it is looked for in the text
_PLACED = {_MESSAGE, _TERM, _JUNK, _LINE, _ATTRIBUTE}
_ELEMENTS = _PLACED | {_TEXT, _IDENTIFIER, _STRING, _NUMBER, _MESSAGE_REFERENCE, _TERM_REFERENCE, _VARIABLE, _FUNCTION,
                       _NAMED}


def resource(data: bytes, nesting: int, with_spans: bool, with_elements: bool) -> Tuple[ast.Resource, bool]:
    """The tree of a text by edition one, and whether the text has errors.

    With spans the names of entries and attributes, comments and junk have theirs; with elements also names, texts and
    literals in values.
    """
    nodes, has_errors = _library.nodes(data, 1, nesting)
    if data.isascii():
        text = data.decode()
        texts = [text[start:end] for start, end in zip(nodes.starts, nodes.ends)]
    else:
        texts = [data[start:end].decode() for start, end in zip(nodes.starts, nodes.ends)]
    spans: List[Optional[Span]] = [None] * len(texts)
    if with_spans:
        spans = _spans(nodes, texts, _ELEMENTS if with_elements else _PLACED)
    return ast.Resource(_body(nodes, texts, spans)), has_errors


def _spans(nodes: Nodes, texts: List[str], placed: Set[int]) -> List[Optional[Span]]:
    """The places in characters. The texts ascend, and no other character of the whole text is beyond ASCII."""
    lengths = [*map(len, texts)]
    beyond = accumulate(map(sub, map(sub, nodes.ends, nodes.starts), lengths), initial=0)
    starts = [*map(sub, nodes.starts, beyond)]
    return [Span(start, start + length) if kind in placed else None
            for kind, start, length in zip(nodes.kinds, starts, lengths)]


def _body(nodes: Nodes, texts: List[str], spans: List[Optional[Span]]) -> List[ast.AnyEntry]:
    made: List[Any] = []
    push, pop = made.append, made.pop
    for kind, held, text, span in zip(reversed(nodes.kinds), reversed(nodes.held), reversed(texts), reversed(spans)):
        if kind == _TEXT:
            push(ast.TextElement(text, span))
        elif kind == _PATTERN:
            push(ast.Pattern([pop()] if held == 1 else _taken(made, held)))
        elif kind == _MESSAGE:
            parts = [pop()] if held == 1 else _taken(made, held)
            value = parts.pop(0) if type(parts[0]) is ast.Pattern else None
            push(ast.Message(Identifier(text, span), value, parts))
        elif kind == _ATTRIBUTE:
            push(ast.Attribute(Identifier(text, span), pop()))
        elif kind == _PLACEABLE:
            push(ast.Placeable(pop()))
        elif kind == _VARIABLE:
            push(ast.VariableReference(Identifier(text, span)))
        elif kind == _OWN_COMMENT:
            lines = _taken(made, held)
            made[-1].comment = _comment(ast.Comment, lines)
        else:
            push(_OTHERS[kind](_taken(made, held), text, span))
    made.reverse()
    return made


def _taken(made: List[Any], held: int) -> List[Any]:
    """Takes so many nodes off the end, which has the first of them last."""
    taken = made[:-held - 1:-1]
    del made[len(made) - held:]
    return taken


def _comment(kind: Callable[..., Any], lines: List[ast.TextElement]) -> Any:
    """The comment of lines that are given as texts."""
    first, last = (lines[0].span, lines[-1].span) if lines else (None, None)
    span = Span(first.start, last.end) if first and last else None
    return kind("\n".join([line.value for line in lines]), span)


def _arguments(parts: List[Any]) -> ast.CallArguments:
    named = [it for it in parts if isinstance(it, ast.NamedArgument)]
    return ast.CallArguments(parts[:len(parts) - len(named)], named)


def _term_reference(parts: List[Any], name: Identifier) -> ast.TermReference:
    attribute = parts.pop(0) if parts and isinstance(parts[0], Identifier) else None
    return ast.TermReference(name, attribute, parts[0] if parts else None)


# the node of what it holds, of its text and of the span of that
_OTHERS: Dict[int, Callable[[List[Any], str, Optional[Span]], Any]] = {
    _TERM: lambda parts, text, span: ast.Term(Identifier(text, span), parts[0], parts[1:]),
    _COMMENT: lambda parts, text, span: _comment(ast.Comment, parts),
    _GROUP_COMMENT: lambda parts, text, span: _comment(ast.GroupComment, parts),
    _RESOURCE_COMMENT: lambda parts, text, span: _comment(ast.ResourceComment, parts),
    _LINE: lambda parts, text, span: ast.TextElement(text, span),
    _JUNK: lambda parts, text, span: ast.Junk(text, [], span),
    _SELECT: lambda parts, text, span: ast.SelectExpression(parts[0], parts[1:]),
    _VARIANT: lambda parts, text, span: ast.Variant(parts[0], parts[1], False),
    _DEFAULT_VARIANT: lambda parts, text, span: ast.Variant(parts[0], parts[1], True),
    _IDENTIFIER: lambda parts, text, span: Identifier(text, span),
    _STRING: lambda parts, text, span: ast.StringLiteral(text, span),
    _NUMBER: lambda parts, text, span: ast.NumberLiteral(text, span),
    _MESSAGE_REFERENCE: lambda parts, text, span: ast.MessageReference(Identifier(text, span), *parts),
    _TERM_REFERENCE: lambda parts, text, span: _term_reference(parts, Identifier(text, span)),
    _FUNCTION: lambda parts, text, span: ast.FunctionReference(Identifier(text, span), parts[0]),
    _ARGUMENTS: lambda parts, text, span: _arguments(parts),
    _NAMED: lambda parts, text, span: ast.NamedArgument(Identifier(text, span), parts[0]),
}
