"""Trees as the library's JSON. docs/CALLING.md has its form.

`json_of` writes the text and looks at little. `value_of` looks at each node: what is no tree it refuses with the way to
it, as `body[2].value.elements[0].value is int, not str`.
"""
import json
from typing import Any, Callable, Dict, Optional, Type

from . import ast

Value = Dict[str, Any]


def _refused(found: object, wanted: str, way: str) -> TypeError:
    return TypeError(f"{way} is {type(found).__name__}, not {wanted}")


def _text(value: object, way: str) -> str:
    if not isinstance(value, str):
        raise _refused(value, "str", way)
    return value


def _list(values: object, way: str, each: Callable[[Any, str], Value]) -> "list[Value]":
    if not isinstance(values, list):
        raise _refused(values, "list", way)
    return [each(it, f"{way}[{at}]") for at, it in enumerate(values)]


def _as(value: object, wanted: Type[ast.BaseNode], way: str) -> Any:
    if not isinstance(value, wanted):
        raise _refused(value, wanted.__name__, way)
    return value


def _identifier(value: object, way: str) -> Value:
    return {"name": _text(_as(value, ast.Identifier, way).name, f"{way}.name")}


def _optional_identifier(value: object, way: str) -> Optional[Value]:
    return None if value is None else _identifier(value, way)


def _literal(value: Any, way: str) -> Value:
    return {"type": type(value).__name__, "value": _text(value.value, f"{way}.value")}


def _message_reference(value: Any, way: str) -> Value:
    return {"type": "MessageReference", "id": _identifier(value.id, f"{way}.id"),
            "attribute": _optional_identifier(value.attribute, f"{way}.attribute")}


def _term_reference(value: Any, way: str) -> Value:
    arguments = None if value.arguments is None else _arguments(value.arguments, f"{way}.arguments")
    return {"type": "TermReference", "id": _identifier(value.id, f"{way}.id"),
            "attribute": _optional_identifier(value.attribute, f"{way}.attribute"), "arguments": arguments}


def _variable_reference(value: Any, way: str) -> Value:
    return {"type": "VariableReference", "id": _identifier(value.id, f"{way}.id")}


def _function_reference(value: Any, way: str) -> Value:
    return {"type": "FunctionReference", "id": _identifier(value.id, f"{way}.id"),
            "arguments": _arguments(value.arguments, f"{way}.arguments")}


def _named(value: object, way: str) -> Value:
    argument = _as(value, ast.NamedArgument, way)
    return {"type": "NamedArgument", "name": _identifier(argument.name, f"{way}.name"),
            "value": _inline(argument.value, f"{way}.value")}


def _arguments(value: object, way: str) -> Value:
    arguments = _as(value, ast.CallArguments, way)
    return {"type": "CallArguments", "positional": _list(arguments.positional, f"{way}.positional", _inline),
            "named": _list(arguments.named, f"{way}.named", _named)}


def _placeable(value: Any, way: str) -> Value:
    expression, below = value.expression, f"{way}.expression"
    written = _select(expression, below) if isinstance(expression, ast.SelectExpression) else _inline(expression, below)
    return {"type": "Placeable", "expression": written}


_INLINE: Dict[Type[ast.BaseNode], Callable[[Any, str], Value]] = {
    ast.StringLiteral: _literal,
    ast.NumberLiteral: _literal,
    ast.MessageReference: _message_reference,
    ast.TermReference: _term_reference,
    ast.VariableReference: _variable_reference,
    ast.FunctionReference: _function_reference,
    ast.Placeable: _placeable,
}


def _by_class(table: Dict[Type[ast.BaseNode], Callable[[Any, str], Value]], value: object, wanted: str,
              way: str) -> Value:
    for each in type(value).__mro__:
        if each in table:
            return table[each](value, way)
    raise _refused(value, wanted, way)


def _inline(value: object, way: str) -> Value:
    return _by_class(_INLINE, value, "an inline expression", way)


def _select(value: Any, way: str) -> Value:
    return {"selector": _inline(value.selector, f"{way}.selector"),
            "variants": _list(value.variants, f"{way}.variants", _variant)}


def _variant(value: object, way: str) -> Value:
    variant = _as(value, ast.Variant, way)
    key, below = variant.key, f"{way}.key"
    if isinstance(key, ast.Identifier):
        written = {"type": "Identifier", "name": _text(key.name, f"{below}.name")}
    else:
        written = _literal(_as(key, ast.NumberLiteral, below), below)
    if not isinstance(variant.default, bool):
        raise _refused(variant.default, "bool", f"{way}.default")
    return {"type": "Variant", "key": written, "value": _pattern(variant.value, f"{way}.value"),
            "default": variant.default}


def _text_element(value: Any, way: str) -> Value:
    return {"type": "TextElement", "value": _text(value.value, f"{way}.value")}


_ELEMENTS: Dict[Type[ast.BaseNode], Callable[[Any, str], Value]] = {
    ast.TextElement: _text_element,
    ast.Placeable: _placeable,
}


def _element(value: object, way: str) -> Value:
    return _by_class(_ELEMENTS, value, "TextElement or Placeable", way)


def _pattern(value: object, way: str) -> Value:
    return {"elements": _list(_as(value, ast.Pattern, way).elements, f"{way}.elements", _element)}


def _attribute(value: object, way: str) -> Value:
    attribute = _as(value, ast.Attribute, way)
    return {"id": _identifier(attribute.id, f"{way}.id"), "value": _pattern(attribute.value, f"{way}.value")}


def _lines(value: Any, way: str) -> "list[str]":
    return _text(value.content, f"{way}.content").split("\n")


def _own_parts(value: Any, way: str) -> Value:
    """What messages and terms have alike."""
    comment = value.comment
    if comment is not None:
        comment = {"content": _lines(_as(comment, ast.Comment, f"{way}.comment"), f"{way}.comment")}
    return {"id": _identifier(value.id, f"{way}.id"),
            "attributes": _list(value.attributes, f"{way}.attributes", _attribute), "comment": comment}


def _message(value: Any, way: str) -> Value:
    pattern = None if value.value is None else _pattern(value.value, f"{way}.value")
    return {"type": "Message", "value": pattern, **_own_parts(value, way)}


def _term(value: Any, way: str) -> Value:
    return {"type": "Term", "value": _pattern(value.value, f"{way}.value"), **_own_parts(value, way)}


def _comment_of(name: str) -> Callable[[Any, str], Value]:
    return lambda value, way: {"type": name, "content": _lines(value, way)}


def _junk(value: Any, way: str) -> Value:
    return {"type": "Junk", "content": _text(value.content, f"{way}.content")}


_ENTRIES: Dict[Type[ast.BaseNode], Callable[[Any, str], Value]] = {
    ast.Message: _message,
    ast.Term: _term,
    ast.Comment: _comment_of("Comment"),
    ast.GroupComment: _comment_of("GroupComment"),
    ast.ResourceComment: _comment_of("ResourceComment"),
    ast.Junk: _junk,
}


def _entry(value: object, way: str) -> Value:
    return _by_class(_ENTRIES, value, "an entry", way)


def value_of(tree: object) -> Value:
    """The JSON value of a tree. `TypeError` where it is none."""
    if not isinstance(tree, ast.Resource):
        raise TypeError(f"a tree is Resource, not {type(tree).__name__}")
    return {"body": _list(tree.body, "body", _entry)}


# the same of each class, as text and with little looked at: what is no tree may give JSON of none, or an error
_quoted = json.encoder.encode_basestring


def _form(node: Any) -> str:
    return _FORMS[type(node)](node)


def _forms(nodes: Any) -> str:
    return f'[{",".join([_FORMS[type(it)](it) for it in nodes])}]'


def _name(name: Any) -> str:
    return f'{{"name":{_quoted(name.name)}}}' if name is not None else "null"


def _content(comment: Any) -> str:
    return f'"content":[{",".join(map(_quoted, comment.content.split(_LF)))}]}}'


def _parts(it: Any) -> str:
    comment = f"{{{_content(it.comment)}" if it.comment is not None else "null"
    return (f'"id":{_name(it.id)},"value":{_form(it.value)},"attributes":{_forms(it.attributes)},'
            f'"comment":{comment}}}')


_LF = "\n"
_FORMS: Dict[type, Callable[[Any], str]] = {
    type(None): lambda it: "null",
    ast.Message: lambda it: f'{{"type":"Message",{_parts(it)}',
    ast.Term: lambda it: f'{{"type":"Term",{_parts(it)}',
    ast.Comment: lambda it: f'{{"type":"Comment",{_content(it)}',
    ast.GroupComment: lambda it: f'{{"type":"GroupComment",{_content(it)}',
    ast.ResourceComment: lambda it: f'{{"type":"ResourceComment",{_content(it)}',
    ast.Junk: lambda it: f'{{"type":"Junk","content":{_quoted(it.content)}}}',
    ast.Attribute: lambda it: f'{{"id":{_name(it.id)},"value":{_form(it.value)}}}',
    ast.Identifier: lambda it: f'{{"type":"Identifier","name":{_quoted(it.name)}}}',
    ast.Pattern: lambda it: f'{{"elements":{_forms(it.elements)}}}',
    ast.TextElement: lambda it: f'{{"type":"TextElement","value":{_quoted(it.value)}}}',
    ast.Placeable: lambda it: f'{{"type":"Placeable","expression":{_form(it.expression)}}}',
    ast.SelectExpression: lambda it: f'{{"selector":{_form(it.selector)},"variants":{_forms(it.variants)}}}',
    ast.Variant: lambda it: f'{{"type":"Variant","key":{_form(it.key)},"value":{_form(it.value)},'
                            f'"default":{json.dumps(it.default)}}}',
    ast.StringLiteral: lambda it: f'{{"type":"StringLiteral","value":{_quoted(it.value)}}}',
    ast.NumberLiteral: lambda it: f'{{"type":"NumberLiteral","value":{_quoted(it.value)}}}',
    ast.MessageReference: lambda it: f'{{"type":"MessageReference","id":{_name(it.id)},'
                                     f'"attribute":{_name(it.attribute)}}}',
    ast.TermReference: lambda it: f'{{"type":"TermReference","id":{_name(it.id)},"attribute":{_name(it.attribute)},'
                                  f'"arguments":{_form(it.arguments)}}}',
    ast.VariableReference: lambda it: f'{{"type":"VariableReference","id":{_name(it.id)}}}',
    ast.FunctionReference: lambda it: f'{{"type":"FunctionReference","id":{_name(it.id)},'
                                      f'"arguments":{_form(it.arguments)}}}',
    ast.CallArguments: lambda it: f'{{"type":"CallArguments","positional":{_forms(it.positional)},'
                                  f'"named":{_forms(it.named)}}}',
    ast.NamedArgument: lambda it: f'{{"type":"NamedArgument","name":{_name(it.name)},"value":{_form(it.value)}}}',
}


def json_of(tree: object) -> str:
    """The JSON text of a tree. `TypeError` where it is none; but there the text may be JSON of none, too."""
    if type(tree) is ast.Resource:
        try:
            return f'{{"body":{_forms(tree.body)}}}'
        except (AttributeError, KeyError, TypeError):
            pass
    return json.dumps(value_of(tree), ensure_ascii=False)
