"""Fluent Translation Lists: read, checked, formatted and written by a library that is proved to be the written grammar.

    >>> import dovelectern
    >>> tree = dovelectern.parse("hello = Hello, { $name }!")
    >>> tree.body[0].id.name
    'hello'
    >>> dovelectern.serialize(tree)
    'hello = Hello, { $name }!\\n'
    >>> [str(error) for error in dovelectern.check("bro ken")]
    ['1:5: Expected a token starting with "="']
    >>> [str(finding) for finding in dovelectern.lint("about = About { -brand }")]
    ['1:18: error[undefined-term]: no text defines the term `-brand`']
    >>> dovelectern.set_value("# said at the door\\nhello=Hi", "hello", "Good day")
    '# said at the door\\nhello= Good day\\n'
"""
from . import ast
from ._calls import check, check_file, compare, first_uncanonical, format, format_file, is_canonical, lint, parse
from ._calls import parse_file, serialize, serialize_entry
from ._edits import Edit, Insert, Remove, Replace, SetAttribute, SetValue, edit_all, insert, remove, replace
from ._edits import set_attribute, set_value
from ._library import NESTING, Text
from .errors import Cause, Error, Finding, FluentError, NotFound, NotOneEntry, NoTree, NoValue, Overlap, PartHasErrors
from .errors import Place, ReadsOtherwise, SyntaxErrors, TooDeep, Uncanonical
from .visitor import Transformer, Visitor, joined, split

__version__ = "2.4.0"

__all__ = [
    "Cause", "Edit", "Error", "Finding", "FluentError", "Insert", "NESTING", "NoTree", "NoValue", "NotFound",
    "NotOneEntry", "Overlap", "PartHasErrors", "Place", "ReadsOtherwise", "Remove", "Replace", "SetAttribute", "SetValue",
    "SyntaxErrors", "Text", "TooDeep", "Transformer", "Uncanonical", "Visitor", "ast", "check", "check_file", "compare",
    "edit_all", "first_uncanonical", "format", "format_file", "insert", "is_canonical", "joined", "lint", "parse", "parse_file", "remove", "replace", "serialize", "serialize_entry",
    "set_attribute", "set_value", "split",
]
