"""Every text with known answers, through the package."""
import json
import re
import threading
import unittest
from typing import Any, Optional, Union

import dovelectern
from dovelectern import _writing, ast
from texts import all_texts

TEXTS = all_texts()


def in_characters(text: str, place: str) -> int:
    """How many characters begin in so many of the bytes of the text."""
    return sum(byte & 0xC0 != 0x80 for byte in text.encode()[:int(place)])


def known_errors(text: str, lines: str) -> "list[tuple[object, ...]]":
    """What the lines of the command `check` tell, with places in characters."""
    found = re.findall(r"(\d+):(\d+) (\d+)\.\.(\d+) (\d+)\.\.(\d+) (\w+)\n", lines)
    return [(int(line), int(column), *(in_characters(text, it) for it in places), kind)
            for line, column, *places, kind in found]


def told(error: dovelectern.Error) -> "tuple[object, ...]":
    span, junk = error.span, error.junk
    return error.line, error.column_bytes, span.start, span.end, junk.start, junk.end, error.kind


def with_lines(value: "dict[str, Any]") -> "dict[str, Any]":
    """The value with a line in comments that have none: a sign at the end of a text. Trees here have one."""
    for entry in value["body"]:
        if entry.get("content") == []:
            entry["content"] = [""]
    return value


def named(tree: ast.Resource) -> "list[Union[ast.Message, ast.Term, ast.Attribute]]":
    return [it for entry in tree.body if isinstance(entry, (ast.Message, ast.Term))
            for it in [entry, *entry.attributes]]


def nodes_in(node: Any) -> "list[Any]":
    """The nodes that a node or a list has directly; of junk none."""
    if isinstance(node, ast.Junk):
        return []
    held = node if isinstance(node, list) else [getattr(node, name) for name in ast.field_names(node)]
    return [it for one in held for it in (one if isinstance(one, list) else [one]) if isinstance(it, ast.BaseNode)]


def is_spelled(node: Any, there: str) -> bool:
    """Whether a node may be spelled so."""
    if isinstance(node, (ast.Identifier, ast.TextElement, ast.NumberLiteral, ast.StringLiteral, ast.VariableReference)):
        name = node.id.name if isinstance(node, ast.VariableReference) else getattr(node, "name", None) or node.value
        return there == {ast.StringLiteral: f'"{name}"', ast.VariableReference: f"${name}"}.get(type(node), name)
    first, last = {
        ast.Placeable: ("{", "}"), ast.CallArguments: (r"\(", r"\)"), ast.FunctionReference: ("[A-Z]", r"\)"),
        ast.TermReference: ("-", r"[\w)-]"), ast.MessageReference: (r"[a-zA-Z]", r"[\w-]"),
        ast.Variant: (r"(\*\[)" if getattr(node, "default", False) else r"\[", ""), ast.Attribute: (r"\.", ""),
        ast.Comment: ("#", ""), ast.GroupComment: ("##", ""), ast.ResourceComment: ("###", ""),
    }.get(type(node), ("", ""))
    return re.match(f"{first}(.*{last})?$" if last else first, there, re.S) is not None


def without_junk(tree: ast.Resource) -> ast.Resource:
    return ast.Resource([it for it in tree.body if not isinstance(it, ast.Junk)])


def texts_of(tree: ast.Resource) -> ast.Resource:
    """The tree with texts that follow one another as one, and without empty texts."""
    class Full(dovelectern.Transformer):
        def visit_TextElement(self, node: ast.TextElement) -> Optional[ast.TextElement]:
            return node if node.value else None

    texts: ast.Resource = Full().visit(dovelectern.joined(tree))
    return texts


class Texts(unittest.TestCase):
    def test_there_are_texts(self) -> None:
        self.assertGreater(len(TEXTS), 2700)

    def test_errors(self) -> None:
        for text, wanted in TEXTS:
            for edition, word in ((1, "check"), (2, "check-two")):
                with self.subTest(text=text, edition=edition):
                    found = dovelectern.check(text, edition=edition)
                    self.assertEqual([told(it) for it in found], known_errors(text, wanted[word][1]))
                    self.assertEqual(len(found), wanted[word][1].count("\n"))
                    self.assertEqual(bool(found), wanted[word][0] == 1)

    def test_formatted(self) -> None:
        for text, wanted in TEXTS:
            for word, how in (("format", {}), ("runtime", {"comments": False}), ("format-two", {"edition": 2})):
                status, output = wanted[word]
                with self.subTest(text=text, word=word):
                    self.assertEqual(dovelectern.format(text, drop_junk=True, **how), output)
                    if status == 0:
                        self.assertEqual(dovelectern.format(text.encode(), **how), output)
                    else:
                        with self.assertRaises(dovelectern.SyntaxErrors) as raised:
                            dovelectern.format(text, **how)
                        self.assertEqual(raised.exception.errors,
                                         dovelectern.check(text, edition=how.get("edition", 1)))

    def test_trees(self) -> None:
        """The tree has all that the JSON of the text has, and is written as the normal form."""
        for text, wanted in TEXTS:
            with self.subTest(text=text):
                tree = dovelectern.parse(text)
                known = json.loads(wanted["json"][1])
                lines_of_all = all(it.get("content") != [] for it in known["body"])
                self.assertEqual(_writing.value_of(tree), with_lines(known))
                written = dovelectern.serialize(tree, strict=False)
                if lines_of_all:
                    self.assertEqual(written, wanted["format"][1])
                if texts_of(dovelectern.parse(written)) == texts_of(without_junk(tree)):
                    self.assertEqual(dovelectern.serialize(tree), written)
                else:
                    with self.assertRaises(dovelectern.ReadsOtherwise):
                        dovelectern.serialize(tree)

    def test_there_and_back(self) -> None:
        """A written tree is read as what it was read as, and is written as the library formats it."""
        for text, wanted in TEXTS:
            with self.subTest(text=text):
                back = dovelectern.parse(wanted["format"][1])
                self.assertEqual(dovelectern.serialize(back), dovelectern.format(wanted["format"][1], drop_junk=True))

    def test_spans(self) -> None:
        for text, _ in TEXTS:
            with self.subTest(text=text):
                tree = dovelectern.parse(text)
                for it in named(tree):
                    self.assertEqual(text[it.id.span.start:it.id.span.end], it.id.name)
                for it in tree.body:
                    if isinstance(it, ast.Junk):
                        self.assertEqual(text[it.span.start:it.span.end], it.content)
                        self.assertEqual(len(it.annotations), 1)
                self.assertEqual(dovelectern.parse(text, with_spans=False), tree)

    def test_spans_of_values(self) -> None:
        """What stands at a value's span is read as the value; a `=` stands before it, and no blank line behind it."""
        for text, _ in TEXTS:
            with self.subTest(text=text):
                for it in named(dovelectern.parse(text)):
                    if it.value is None:
                        continue
                    span = it.value.span
                    self.assertRegex(text[it.id.span.end:span.start], "^ *=$")
                    self.assertNotRegex(text[span.end:], r"^ *\r?\n")
                    alone = dovelectern.parse("k =" + text[span.start:span.end])
                    self.assertEqual(alone.body, [ast.Message(ast.Identifier("k"), it.value)])

    def test_spans_of_nodes(self) -> None:
        """Each node is spelled as it should be where its span is, within what holds it; and is read there alone."""
        for text, _ in TEXTS:
            with self.subTest(text=text):
                tree = dovelectern.parse(text, element_spans=True)
                for node in nodes_in(tree.body):
                    there = text[node.span.start:node.span.end]
                    self.assertTrue(is_spelled(node, there), (node, there))
                    for below in nodes_in(node):
                        self.assertLessEqual(node.span.start, below.span.start)
                        if not isinstance(below, ast.Pattern):
                            # a value has its line end, and a message has none
                            self.assertLessEqual(below.span.end, node.span.end)
                    if isinstance(node, ast.Placeable):
                        alone = dovelectern.parse("k = " + there).body[0]
                        assert isinstance(alone, ast.Message) and alone.value
                        self.assertEqual(alone.value.elements, [node])

    def test_columns(self) -> None:
        for text, _ in TEXTS:
            for it in dovelectern.check(text):
                with self.subTest(text=text):
                    start = text.rfind("\n", 0, it.span.start) + 1
                    before = text[start:it.span.start]
                    self.assertEqual(it.line, text[:it.span.start].count("\n") + 1)
                    self.assertEqual(it.column, len(before) + 1)
                    self.assertEqual(it.column_bytes, len(before.encode()) + 1)
                    self.assertEqual(it.column_utf16, len(before.encode("utf-16-le")) // 2 + 1)

    def test_clones(self) -> None:
        for text, _ in TEXTS[::16]:
            tree = dovelectern.parse(text)
            copy = tree.clone()
            self.assertTrue(tree.equals(copy, ignored_fields=()))
            self.assertEqual(copy, tree)
            for one, other in zip(tree.body, copy.body):
                self.assertIsNot(one, other)

    def test_eight_threads(self) -> None:
        wanted = [(dovelectern.parse(text), dovelectern.check(text)) for text, _ in TEXTS[::4]]
        given = []

        def work() -> None:
            given.append([(dovelectern.parse(text), dovelectern.check(text)) for text, _ in TEXTS[::4]] == wanted)

        threads = [threading.Thread(target=work) for _ in range(8)]
        for it in threads:
            it.start()
        for it in threads:
            it.join()
        self.assertEqual(given, [True] * 8)


if __name__ == "__main__":
    unittest.main()
