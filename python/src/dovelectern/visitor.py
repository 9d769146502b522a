"""Walks over trees."""
from typing import Any, List

from ._collection import no_collection
from .ast import BaseNode, Pattern, PatternElement, Resource, TextElement, copied, field_names, text_elements


class Visitor:
    """Walks a tree, and changes nothing.

    A subclass has methods as `visit_Message(node)`, by the class of the node. Each sees to the nodes below by
    `self.generic_visit(node)`, or else they are left out.
    """

    def visit(self, node: Any) -> None:
        if isinstance(node, list):
            for item in node:
                self.visit(item)
        elif isinstance(node, BaseNode):
            getattr(self, f"visit_{type(node).__name__}", self.generic_visit)(node)

    def generic_visit(self, node: BaseNode) -> None:
        for name in field_names(node):
            self.visit(getattr(node, name))


class Transformer(Visitor):
    """Walks a tree and changes it in place.

    A method `visit_Message(node)` returns what is to stand in the node's place: the node itself, another one, or None
    where the node goes: out of its list, or None is put for it.
    """

    def visit(self, node: Any) -> Any:
        if isinstance(node, BaseNode):
            return getattr(self, f"visit_{type(node).__name__}", self.generic_visit)(node)
        return node

    def generic_visit(self, node: BaseNode) -> Any:
        for name in field_names(node):
            value = getattr(node, name)
            if isinstance(value, list):
                changed = (self.visit(item) for item in value)
                value[:] = [item for item in changed if item is not None]
            elif isinstance(value, BaseNode):
                setattr(node, name, self.visit(value))
        return node


def _join_texts(node: Any) -> None:
    if not isinstance(node, Pattern):
        return
    elements: List[PatternElement] = []
    for element in node.elements:
        last = elements[-1] if elements else None
        if isinstance(element, TextElement) and isinstance(last, TextElement):
            last.value += element.value
        else:
            elements.append(element)
    node.elements = elements


def _split_texts(node: Any) -> None:
    _join_texts(node)
    if isinstance(node, Pattern):
        node.elements = [part for it in node.elements
                         for part in (text_elements(it.value) if isinstance(it, TextElement) else [it])]


def split(resource: Resource) -> Resource:
    """A copy of the tree with a text for each line, as `parse` gives it: `a\\nb` is `a\\n` and `b`."""
    with no_collection():
        copy: Resource = copied(resource, _split_texts)
    return copy


def joined(resource: Resource) -> Resource:
    """A copy of the tree in which texts that follow one another are one: `parse` gives one for each line."""
    with no_collection():
        copy: Resource = copied(resource, _join_texts)
    return copy
