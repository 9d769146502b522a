#!/usr/bin/env python3
"""Makes trees at random, as JSON, one a line, the same at each run: tests/random_trees.py [TREES]

They are mostly canonical, and now and then break a rule of canonical trees. `fluent_syntax_checks trees` writes them
and reads them back; tests/programs gives it these.
"""
import json
import random
import sys

TREES = 4000
# one of so many choices breaks a rule
ODDS = 40
NAMES, ODD_NAMES = ["a", "key", "b-2", "Z_", "other"], ["1", "", "a b", "é", "-a"]
CALLEES, ODD_CALLEES = ["F", "NUMBER", "A-1_"], ["f", "Fa", ""]
NUMBERS, ODD_NUMBERS = ["0", "1", "3.14", "007"], ["x", "1.", "", "-", "1.2.3"]
STRINGS, ODD_STRINGS = ["", "s", '\\"', "\\u00e9", "{ }", " a "], ['a"b', "\\", "a\nb", "\\u12", "\\n"]
COMMENT_LINES, ODD_COMMENT_LINES = ["", "c", "two words", " x", "é # a"], ["a\nb", " ", "\r"]
# texts that are a whole line, begin one, end one, or stand between placeables; and those that end in LF
WHOLE, OPENING, CLOSING, INNER = ["a", "b c", "é", "a.[*"], ["a ", "b", "c: ", "é"], [" a", "b", ".c", "*"], \
    [" ", "a", " [b] ", "é "]
WHOLE_LINES, CLOSING_LINES = ["a\n", "b c \n", "é\n", "a  b\n"], ["\n", "\n", " a\n", " \n", ".c\n"]
# texts that break a rule wherever they stand, or where they begin or end a line
ODD_TEXTS = ["", "a\nb", "{", "}", "a\r\n", " ", "  a", "a ", ".b", "[c", "*d", " .e", "\n", "    ", "  \n", "  b\n",
             "a\r"]
JUNK = ["junk\n", "x", "{ a\n"]
dice = random.Random(1)


def one_in(chances):
    return dice.randrange(chances) == 0


def is_odd():
    return one_in(ODDS)


def few():
    """A number from 1 to 3, and 1 more often than the others."""
    return dice.choice([1, 1, 2, 3])


def pick(usual, odd):
    return dice.choice(odd if is_odd() else usual)


def name():
    return {"name": pick(NAMES, ODD_NAMES)}


# ---- expressions

def literal():
    if one_in(2):
        return {"type": "StringLiteral", "value": pick(STRINGS, ODD_STRINGS)}
    return {"type": "NumberLiteral", "value": pick(NUMBERS, ODD_NUMBERS)}


def variable():
    return {"type": "VariableReference", "id": name()}


def message(has_attribute=False):
    return {"type": "MessageReference", "id": name(), "attribute": name() if has_attribute else None}


def term(has_attribute, arguments=None):
    return {"type": "TermReference", "id": name(), "attribute": name() if has_attribute else None,
            "arguments": arguments}


def leaf():
    """An expression that holds no other; now and then a term reference with an attribute."""
    return dice.choice([message, lambda: message(True), lambda: term(is_odd()), literal, variable,
                        lambda: {"type": "NumberLiteral", "value": pick(["-1", "-0.5"], ODD_NUMBERS)}])()


def function(depth):
    return {"type": "FunctionReference", "id": {"name": pick(CALLEES, ODD_CALLEES)}, "arguments": arguments(depth)}


def inline(depth):
    return dice.choice([lambda: function(depth), lambda: term(False, arguments(depth)), leaf,
                        lambda: {"type": "Placeable", "expression": expression(depth)}])()


def argument(depth):
    return inline(depth - 1) if depth else leaf()


def named_value(depth):
    if is_odd():
        return argument(depth)
    return message() if not depth or one_in(2) else function(depth - 1)


def named(argument_name, value):
    return {"type": "NamedArgument", "name": argument_name, "value": value}


def arguments(depth):
    positional = [argument(depth) for _ in range(1, few())]
    given = [named(name(), literal())] if one_in(2) else []
    given += [named({"name": "named"}, named_value(depth))] if one_in(4) else []
    return {"type": "CallArguments", "positional": positional, "named": given}


def selector(depth):
    if is_odd():
        return inline(depth)
    return dice.choice([literal, lambda: function(depth), lambda: term(True), variable])()


def select(depth):
    """A select with one default variant, or now and then with another number of them."""
    count = few()
    default = dice.randrange(count)
    keys = [lambda: {"type": "Identifier", **name()},
            lambda: {"type": "NumberLiteral", "value": pick(NUMBERS, ODD_NUMBERS)}]
    return {"selector": selector(depth),
            "variants": [{"type": "Variant", "key": dice.choice(keys)(), "value": pattern(depth),
                          "default": (number == default) != is_odd()} for number in range(count)]}


def expression(depth):
    if not depth or one_in(2):
        return leaf()
    return select(depth - 1) if one_in(3) else inline(depth - 1)


# ---- patterns and entries

def text(value):
    return {"type": "TextElement", "value": value}


def line(depth, whole, closing, is_last):
    """A line of text, of a placeable or of both, and now and then a text that breaks a rule before it."""
    def placeable():
        return {"type": "Placeable", "expression": expression(depth)}

    elements = [text(dice.choice(ODD_TEXTS))] if is_odd() else []
    kind = dice.randrange(5)
    if kind < 2:
        return [*elements, text(dice.choice(whole))]
    elements += [text(dice.choice(OPENING))] if kind == 2 else []
    elements.append(placeable())
    elements += [text(dice.choice(INNER)), placeable()] if kind == 3 else []
    return elements + ([text(dice.choice(closing))] if not is_last or one_in(2) else [])


def pattern(depth):
    """A pattern of one to three lines, whose placeables nest at most so deep."""
    if is_odd():
        return {"elements": []}
    lines = [line(depth, WHOLE_LINES, CLOSING_LINES, False) for _ in range(1, few())]
    return {"elements": sum([*lines, line(depth, WHOLE, CLOSING, True)], [])}


def comment():
    return {"content": [] if is_odd() else [pick(COMMENT_LINES, ODD_COMMENT_LINES) for _ in range(few())]}


def fields(kind, has_value, count):
    return {"type": kind, "id": name(), "value": pattern(4) if has_value else None,
            "attributes": [{"id": name(), "value": pattern(2)} for _ in range(count)],
            "comment": comment() if one_in(4) else None}


def entry():
    if one_in(20):
        return {"type": "Junk", "content": dice.choice(JUNK)}
    kind = dice.choice(["Comment", "GroupComment", "ResourceComment", "Term", "Term", "Message", "Message", "Message"])
    if kind.endswith("Comment"):
        return {"type": kind, **comment()}
    has_value = kind == "Term" or not one_in(6)
    return fields(kind, has_value, few() if one_in(4) or not has_value and not is_odd() else 0)


def trees(count=TREES):
    """The lines; each tree has one to three entries, and now and then none."""
    for _ in range(count):
        body = [] if is_odd() else [entry() for _ in range(few())]
        yield json.dumps({"body": body}, ensure_ascii=False) + "\n"


if __name__ == "__main__":
    sys.stdout.reconfigure(encoding="utf-8", newline="\n")
    sys.stdout.writelines(trees(*map(int, sys.argv[1:2])))
