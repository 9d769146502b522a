"""Where nodes are in a text, in characters, from where their names, texts and literals are.

Between these there are only signs and blanks, so that a sign is the next one of its kind.
"""
from typing import Any, Callable, Dict, Tuple

from . import ast
from .ast import Span

Place = Tuple[int, int]


def place(tree: ast.Resource, text: str, with_elements: bool) -> None:
    """Sets the span of each entry, attribute and value, and perhaps of what is in values."""
    end = len(text)
    for entry in reversed(tree.body):
        if isinstance(entry, ast.Message) or isinstance(entry, ast.Term):
            end = _place_entry(entry, text, end, with_elements)
        elif isinstance(entry, ast.Junk):
            end = entry.span.start if entry.span else end
        else:
            end = _place_comment(entry, text)


def _place_comment(comment: ast.BaseComment, text: str) -> int:
    """Gives where its line begins. A comment without lines is a sign at the end of the text."""
    if comment.span is None:
        comment.span = Span(len(text), len(text))
    comment.span.start = text.rfind("\n", 0, comment.span.start) + 1
    return comment.span.start


def _place_entry(entry: Any, text: str, end: int, with_elements: bool) -> int:
    """Gives where it begins. Its blank lines end there."""
    last = last_end = _end_of(text, end)
    for attribute in reversed(entry.attributes):
        name = attribute.id.span
        _place_value(attribute.value, text, name.end, end, with_elements)
        attribute.span = Span(name.start - 1, last)
        end = text.rfind("\n", 0, name.start) + 1
        last = _end_of(text, end)
    name = entry.id.span
    if entry.value is not None:
        _place_value(entry.value, text, name.end, end, with_elements)
    start: int = name.start - (type(entry) is ast.Term)
    if entry.comment is not None:
        start = _place_comment(entry.comment, text)
    entry.span = Span(start, last_end)
    return start


def _end_of(text: str, end: int) -> int:
    """Where what ends there with its line end and blank lines ends without them. A CR by itself is no line end."""
    while text[end - 1] in " \n":
        end -= 2 if text.endswith("\r\n", 0, end) else 1
    return end


def _place_value(value: Any, text: str, name_end: int, end: int, with_elements: bool) -> None:
    value.span = Span(text.index("=", name_end) + 1, end)
    if with_elements:
        _place_elements(value.elements, text)


def _place_elements(elements: Any, text: str) -> int:
    for element in elements:
        if type(element) is ast.Placeable:
            _place_placeable(element, text)
    end: int = elements[-1].span.end
    return end


def _place_placeable(node: Any, text: str) -> Place:
    start, end = _placed(node.expression, text)
    node.span = Span(text.rindex("{", 0, start), text.index("}", end) + 1)
    return node.span.start, node.span.end


def _placed(node: Any, text: str) -> Place:
    """Sets the span of an expression, and gives it."""
    place = _PLACES[type(node)](node, text)
    node.span = Span(*place)
    return place


def _string(node: Any, text: str) -> Place:
    return node.span.start - 1, node.span.end + 1


def _number(node: Any, text: str) -> Place:
    return node.span.start, node.span.end


def _variable(node: Any, text: str) -> Place:
    return node.id.span.start - 1, node.id.span.end


def _reference(node: Any, text: str) -> Place:
    last = node.attribute or node.id
    return node.id.span.start, last.span.end


def _term_reference(node: Any, text: str) -> Place:
    start, end = _reference(node, text)
    return start - 1, _place_arguments(node.arguments, text, end) if node.arguments is not None else end


def _function(node: Any, text: str) -> Place:
    return node.id.span.start, _place_arguments(node.arguments, text, node.id.span.end)


def _place_arguments(arguments: ast.CallArguments, text: str, name_end: int) -> int:
    """Gives where its `)` ends, which comes after a name that ends there."""
    start = text.index("(", name_end)
    end = start + 1
    for argument in arguments.positional:
        end = _placed(argument, text)[1]
    for named in arguments.named:
        end = _placed(named, text)[1]
    arguments.span = Span(start, text.index(")", end) + 1)
    return arguments.span.end


def _named(node: Any, text: str) -> Place:
    return node.name.span.start, _placed(node.value, text)[1]


def _select(node: Any, text: str) -> Place:
    start, end = _placed(node.selector, text)
    for variant in node.variants:
        end = _placed(variant, text)[1]
    return start, end


def _variant(node: Any, text: str) -> Place:
    """From the `[`, or the `*` before it."""
    start = text.rindex("[", 0, node.key.span.start) - node.default
    end = _place_elements(node.value.elements, text)
    node.value.span = Span(node.value.elements[0].span.start, end)
    return start, end


_PLACES: Dict[type, Callable[[Any, str], Place]] = {
    ast.StringLiteral: _string,
    ast.NumberLiteral: _number,
    ast.VariableReference: _variable,
    ast.MessageReference: _reference,
    ast.TermReference: _term_reference,
    ast.FunctionReference: _function,
    ast.NamedArgument: _named,
    ast.SelectExpression: _select,
    ast.Variant: _variant,
    ast.Placeable: _place_placeable,
}
