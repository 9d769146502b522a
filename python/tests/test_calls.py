"""What the calls take, give and raise."""
import os
import pathlib
import tempfile
import threading
import unittest
from typing import Any, Optional

import dovelectern
from dovelectern import _library, ast

TEXT = "# about\nkey = Hallo, { $name }!\n    .title = Tür\n-brand = Fluent\nbro ken\n"


def nested(depth: int) -> str:
    return "k = " + "{" * depth + "$a" + "}" * depth + "\n"


def selects(depth: int) -> str:
    return "k = " + "{ $a ->\n *[b] " * depth + "z" + "\n }" * depth + "\n"


class Given(unittest.TestCase):
    """What may be given for a text."""

    def test_kinds_of_texts(self) -> None:
        wanted = dovelectern.parse(TEXT)
        data = TEXT.encode()
        wide = memoryview(data + b" " * (-len(data) % 4)).cast("I")
        for text in (data, bytearray(data), memoryview(data), memoryview(b"." + data)[1:]):
            self.assertEqual(dovelectern.parse(text), wanted)
            self.assertEqual(dovelectern.check(text), dovelectern.check(TEXT))
        self.assertEqual(dovelectern.parse(wide).body[0], wanted.body[0])
        self.assertEqual(dovelectern.parse(memoryview(data)[::-1][::-1]), wanted)

    def test_other_types(self) -> None:
        other: Any
        for other in (None, 5, 1.5, ["a = b"], pathlib.Path("a.ftl"), object()):
            for call in (dovelectern.parse, dovelectern.check, dovelectern.format):
                with self.assertRaisesRegex(TypeError, f"not {type(other).__name__}"):
                    call(other)

    def test_no_utf8(self) -> None:
        for call in (dovelectern.parse, dovelectern.check, dovelectern.format):
            with self.assertRaises(UnicodeDecodeError) as raised:
                call(b"key = \xff\n")
            self.assertEqual((raised.exception.start, raised.exception.end), (6, 7))
            with self.assertRaises(UnicodeEncodeError) as refused:
                call("key = \ud800\n")
            self.assertEqual(refused.exception.start, 6)

    def test_nothing(self) -> None:
        self.assertEqual(dovelectern.parse("").body, [])
        self.assertEqual(dovelectern.check(b""), [])
        self.assertEqual(dovelectern.format("\n\n"), "")
        self.assertEqual(dovelectern.serialize(ast.Resource()), "")

    def test_numbers(self) -> None:
        edition: Any
        for edition in (0, 3, "1", None):
            with self.assertRaises(ValueError):
                dovelectern.check("", edition=edition)
        nesting: Any
        for nesting, error in ((-1, ValueError), (1001, ValueError), ("1", TypeError), (None, TypeError)):
            with self.assertRaises(error):
                dovelectern.parse("", nesting=nesting)
        with self.assertRaises(ValueError):
            dovelectern.format("", edition=2, comments=False)


class Nesting(unittest.TestCase):
    def test_bound(self) -> None:
        for depth in (0, 1, 10, 100):
            for call in (dovelectern.parse, dovelectern.check, dovelectern.format):
                call(nested(depth) if depth else "k = v\n", nesting=depth)
                with self.assertRaises(dovelectern.TooDeep):
                    call(nested(depth + 1), nesting=depth)

    def test_far_beyond(self) -> None:
        for text in (nested(200_000), selects(20_000)):
            with self.assertRaises(dovelectern.TooDeep):
                dovelectern.parse(text)
            with self.assertRaises(dovelectern.TooDeep):
                dovelectern.parse(text, nesting=1000)

    def test_recursion(self) -> None:
        """What the library reads may nest more deeply than this Python's recursion takes; nothing crashes."""
        try:
            tree = dovelectern.parse(selects(1000), nesting=1000)
        except dovelectern.TooDeep:
            return
        self.assertEqual(len(tree.body), 1)

    def test_written(self) -> None:
        tree = dovelectern.parse(selects(20))
        self.assertEqual(dovelectern.parse(dovelectern.serialize(tree)), tree)
        with self.assertRaises(dovelectern.TooDeep):
            dovelectern.serialize(dovelectern.parse(selects(40)))

    def test_in_a_small_stack(self) -> None:
        before = threading.stack_size(1024 * 1024)
        try:
            done = []
            thread = threading.Thread(target=lambda: done.append(dovelectern.check(nested(100))))
            thread.start()
            thread.join()
        finally:
            threading.stack_size(before)
        self.assertEqual(done, [[]])


class Told(unittest.TestCase):
    """What is told of errors."""

    def test_error(self) -> None:
        (error,) = dovelectern.check("tür = { $😀 }\nbro ken\n")[1:]
        self.assertEqual((error.line, error.column, error.kind), (2, 5, "ExpectedToken"))
        self.assertEqual(str(error), '2:5: Expected a token starting with "="')
        self.assertEqual(error.junk, ast.Span(13, 21))

    def test_columns(self) -> None:
        (error,) = dovelectern.check("k = 😀ü{ 5x }\n")
        self.assertEqual((error.column, error.column_utf16, error.column_bytes), (10, 11, 14))

    def test_messages(self) -> None:
        for text, message in (
            ("k = { $a -> x }\n", 'Expected one of "\\n | \\r\\n"'),
            ('k = { "\\u12\n" }\n', 'Invalid unicode escape sequence, "12\\n"'),
            ("k = { F(a: 1, a: 2) }\n", 'The "a" argument appears twice'),
            ("k =\n", 'Expected a message field for "k"'),
            ("-k =\n", 'Expected a term field for "k"'),
            ("k = { -t.a }\n", "Term attributes can't be used as a selector"),
        ):
            (error,) = dovelectern.check(text)
            self.assertEqual(error.message, message)

    def test_causes(self) -> None:
        for text, place, kind, spoken in (
            ("k =\n    .a = A\n    .b = 😀{ $x\n", (4, 1, 1, 1, 30, 30), "ExpectedToken", "}"),
            ("k =\n    .a = 😀{ 5x }\n", (2, 14, 15, 17, 17, 18), "ExpectedToken", "}"),
            ("ü =\n\t.a = A\n", (2, 1, 1, 1, 4, 5), None, "tab"),
            ("ü\nkey\u00a0= x\n", (2, 4, 4, 4, 5, 6), None, "U+00A0"),
        ):
            for edition in (1, 2):
                cause = dovelectern.check(text, edition=edition)[-1].cause
                assert cause is not None
                self.assertEqual((cause.line, cause.column, cause.column_utf16, cause.column_bytes,
                                  cause.span.start, cause.span.end), place)
                self.assertEqual(cause.kind, kind)
                self.assertIn(spoken, cause.message)
                self.assertEqual(str(cause), f"{cause.line}:{cause.column}: {cause.message}")
        self.assertEqual([error.cause for error in dovelectern.check("bro ken\n\nkey = {\n")], [None, None])
        with self.assertRaises(dovelectern.SyntaxErrors) as raised:
            dovelectern.format("k =\n\t.a = A\n")
        self.assertEqual(raised.exception.errors, dovelectern.check("k =\n\t.a = A\n"))
        self.assertIsNotNone(raised.exception.errors[0].cause)

    def test_syntax_errors(self) -> None:
        with self.assertRaises(dovelectern.SyntaxErrors) as raised:
            dovelectern.format("bro ken\nk\n")
        self.assertEqual(len(raised.exception.errors), 2)
        self.assertEqual(str(raised.exception), '1:5: Expected a token starting with "=" (and 1 more)')

    def test_junk(self) -> None:
        junk = dovelectern.parse(TEXT).body[2]
        assert isinstance(junk, ast.Junk)
        (annotation,) = junk.annotations
        self.assertEqual((junk.content, annotation.code), ("bro ken\n", "ExpectedToken"))
        self.assertEqual(annotation.message, 'Expected a token starting with "="')
        self.assertEqual(TEXT[junk.span.start:junk.span.end] if junk.span else "", "bro ken\n")

    def test_kinds(self) -> None:
        names = [_library.kind_name(number) for number in range(1, 22)]
        self.assertEqual(len(set(names)), 21)
        for number in (0, 22, 2**32 - 1):
            with self.assertRaises(ValueError):
                _library.kind_name(number)


class Spans(unittest.TestCase):
    def test_values(self) -> None:
        text = "# ü\nkey = Tür { $x ->\n   *[a] ä\n }\n\n  .title =\n    T\nnone =\n    .a = 😀\n-t=x"
        key, none, term = dovelectern.parse(text, element_spans=True).body
        assert isinstance(key, ast.Message) and isinstance(none, ast.Message) and isinstance(term, ast.Term)
        self.assertIsNone(none.value)
        values = [key.value, key.attributes[0].value, none.attributes[0].value, term.value]
        self.assertEqual([text[it.span.start:it.span.end] for it in values if it and it.span],
                         [" Tür { $x ->\n   *[a] ä\n }\n\n", "\n    T\n", " 😀\n", "x"])
        assert key.value and isinstance(key.value.elements[1], ast.Placeable)
        select = key.value.elements[1].expression
        assert isinstance(select, ast.SelectExpression)
        self.assertEqual([text[it.span.start:it.span.end] for it in (
            key.value.elements[1], select, select.selector, select.variants[0], select.variants[0].value,
            key.attributes[0]) if it.span],
            ["{ $x ->\n   *[a] ä\n }", "$x ->\n   *[a] ä", "$x", "*[a] ä", "ä", ".title =\n    T"])
        plain = dovelectern.parse(text).body[0]
        assert isinstance(plain, ast.Message) and plain.value and plain.value.span
        self.assertEqual((plain.span, plain.value.span, plain.attributes[0].span),
                         (key.span, key.value.span, key.attributes[0].span))
        self.assertEqual([it.span for it in plain.value.elements], [None, None])
        bare = dovelectern.parse(text, with_spans=False).body[0]
        assert isinstance(bare, ast.Message) and bare.value
        self.assertIsNone(bare.value.span)

    def test_calls(self) -> None:
        text = 'a = ü{ -t.b( 1, c : "é" , ) ->\n *[ x ] y\n}{ F() } { m.n }\n'
        (entry,) = dovelectern.parse(text, element_spans=True).body
        assert isinstance(entry, ast.Message) and entry.value
        select, function, _, reference = [it.expression if isinstance(it, ast.Placeable) else it
                                          for it in entry.value.elements[1:]]
        assert isinstance(select, ast.SelectExpression)
        term = select.selector
        assert isinstance(term, ast.TermReference) and term.arguments
        found = [term, term.attribute, term.arguments, *term.arguments.positional, *term.arguments.named, function,
                 reference]
        self.assertEqual([text[it.span.start:it.span.end] for it in found if it and it.span],
                         ['-t.b( 1, c : "é" , )', "b", '( 1, c : "é" , )', "1", 'c : "é"', "F()", "m.n"])

    def test_entries(self) -> None:
        """Entries without their last line end, and with the comment before them; comments by themselves."""
        text = "## ü\r\n##\r\n\r\n# ä\n# b\nkey =\n    T\n    U\n\n# c\n\n  \n### d\nbro ken\n\n-t = x\n    .a = y\n# e"
        body = dovelectern.parse(text).body
        self.assertEqual([text[it.span.start:it.span.end] for it in body if it.span],
                         ["## ü\r\n##", "# ä\n# b\nkey =\n    T\n    U", "# c", "### d", "bro ken\n\n",
                          "-t = x\n    .a = y", "# e"])
        key = body[1]
        assert isinstance(key, ast.Message) and key.comment and key.comment.span
        self.assertEqual(text[key.comment.span.start:key.comment.span.end], "# ä\n# b")


class Files(unittest.TestCase):
    def test_files(self) -> None:
        with tempfile.TemporaryDirectory() as folder:
            path = pathlib.Path(folder) / "a.ftl"
            path.write_bytes("key  =  tür\r\n".encode())
            for given in (path, str(path), os.fsencode(path)):
                self.assertEqual(dovelectern.parse_file(given), dovelectern.parse("key = tür\n"))
                self.assertEqual(dovelectern.check_file(given), [])
                self.assertEqual(dovelectern.format_file(given), "key = tür\n")
            path.write_bytes(b"bro ken\n")
            self.assertEqual(len(dovelectern.check_file(path)), 1)
            with self.assertRaises(dovelectern.SyntaxErrors) as raised:
                dovelectern.format_file(path)
            self.assertTrue(str(raised.exception).startswith(f"{path}:1:5: "))
            path.write_bytes(b"k = \xff\n")
            with self.assertRaises(UnicodeDecodeError) as refused:
                dovelectern.parse_file(path)
            self.assertIn(str(path), str(refused.exception))
            path.write_text(nested(101))
            with self.assertRaisesRegex(dovelectern.TooDeep, str(path)):
                dovelectern.parse_file(path)
            with self.assertRaises(FileNotFoundError):
                dovelectern.parse_file(path.with_name("none.ftl"))


class Trees(unittest.TestCase):
    def test_built_by_hand(self) -> None:
        name = ast.Identifier("open")
        pattern = ast.Pattern([ast.TextElement("Open "), ast.Placeable(ast.TermReference(ast.Identifier("brand")))])
        call = ast.FunctionReference(ast.Identifier("F"), ast.CallArguments(
            [ast.VariableReference(ast.Identifier("n"))],
            [ast.NamedArgument(ast.Identifier("style"), ast.StringLiteral("long"))]))
        select = ast.SelectExpression(call, [ast.Variant(ast.NumberLiteral("1"), ast.Pattern([ast.TextElement("a")])),
                                             ast.Variant(ast.Identifier("b"), pattern.clone(), default=True)])
        tree = ast.Resource([
            ast.Message(name, pattern, [ast.Attribute(ast.Identifier("key"), ast.Pattern([ast.TextElement("O")]))],
                        ast.Comment("about")),
            ast.Message(ast.Identifier("many"), ast.Pattern([ast.Placeable(select)])),
            ast.GroupComment("group"),
        ])
        text = ("# about\nopen = Open { -brand }\n    .key = O\nmany =\n    { F($n, style: \"long\") ->\n        [1] a\n"
                "       *[b] Open { -brand }\n    }\n\n## group\n\n")
        self.assertEqual(dovelectern.serialize(tree), text)
        self.assertEqual(dovelectern.parse(text), tree)
        self.assertEqual(dovelectern.serialize_entry(tree.body[1]), text[text.index("many"):text.index("\n##")])

    def test_no_trees(self) -> None:
        name, text = ast.Identifier("a"), ast.Pattern([ast.TextElement("b")])
        wrong: Any
        for wrong, told in (
            (None, "a tree is Resource, not NoneType"),
            (ast.Message(name), "a tree is Resource, not Message"),
            (ast.Resource([5]), r"body\[0\] is int, not an entry"),
            (ast.Resource([ast.Message("a")]), r"body\[0\].id is str, not Identifier"),
            (ast.Resource([ast.Message(ast.Identifier(5))]), r"body\[0\].id.name is int, not str"),
            (ast.Resource([ast.Message(name, text, None)]), r"body\[0\].attributes is NoneType, not list"),
            (ast.Resource([ast.Term(name, None)]), r"body\[0\].value is NoneType, not Pattern"),
            (ast.Resource([ast.Message(name, ast.Pattern([name]))]), r"value.elements\[0\] is Identifier, not Text"),
            (ast.Resource([ast.Message(name, ast.Pattern([ast.Placeable(None)]))]), "expression is NoneType"),
            (ast.Resource([ast.Comment(["a"])]), r"body\[0\].content is list, not str"),
        ):
            with self.assertRaisesRegex(TypeError, told):
                dovelectern.serialize(wrong)
        with self.assertRaises(UnicodeEncodeError):
            dovelectern.serialize(ast.Resource([ast.Comment("\ud800")]))

    def test_reads_otherwise(self) -> None:
        def message(*elements: ast.PatternElement) -> ast.Message:
            return ast.Message(ast.Identifier("a"), ast.Pattern([*elements]))

        x = ast.Placeable(ast.VariableReference(ast.Identifier("x")))
        for entry in (message(ast.TextElement("{")), message(ast.TextElement("b ")), message(x, ast.TextElement("\n.c = d")),
                      message(), ast.Message(ast.Identifier("a b"), ast.Pattern([x])), ast.Message(ast.Identifier("a")),
                      ast.Comment("  "), message(ast.TextElement("b\nc = d"))):
            tree = ast.Resource([ast.Junk("junk"), message(x), entry, message(x)])
            with self.subTest(entry=entry):
                with self.assertRaisesRegex(dovelectern.ReadsOtherwise, r"^body\[2\] would be read otherwise"):
                    dovelectern.serialize(tree)
                written = dovelectern.serialize(tree, strict=False)
                self.assertNotEqual(dovelectern.joined(dovelectern.parse(written)).body, tree.body[1:])
                with self.assertRaises(dovelectern.ReadsOtherwise):
                    dovelectern.serialize_entry(entry)
                self.assertIn(dovelectern.serialize_entry(entry, strict=False), written)
        for entry in (message(ast.TextElement("b\n"), ast.TextElement("c")), message(x, ast.TextElement(""), x),
                      message(ast.TextElement("b"), ast.TextElement("c")), ast.Comment("a\n\nb"), ast.Comment("")):
            tree = ast.Resource([entry])
            self.assertEqual(dovelectern.serialize(tree), dovelectern.serialize(tree, strict=False))
        self.assertEqual(dovelectern.serialize(ast.Resource([ast.Junk("a")])), "")

    def test_equals(self) -> None:
        one, other = dovelectern.parse("a = b\n# c\n"), dovelectern.parse("\n\na   =   b\n# c\n")
        self.assertEqual(one, other)
        self.assertTrue(one.equals(other))
        self.assertFalse(one.equals(other, ignored_fields=()))
        self.assertFalse(one.equals(dovelectern.parse("a = c\n# c\n")))
        self.assertTrue(one.equals(dovelectern.parse("a = c\n# c\n"), ignored_fields=("span", "value")))
        self.assertFalse(ast.Comment("a").equals(ast.GroupComment("a")))
        self.assertNotEqual(ast.Comment("a"), ast.GroupComment("a"))

    def test_joined(self) -> None:
        tree = dovelectern.parse("a =\n    b\n\n      c\n    { $x ->\n       *[d] e\n            f\n    }\n")
        message = dovelectern.joined(tree).body[0]
        assert isinstance(message, ast.Message) and message.value
        text, placeable = message.value.elements
        self.assertEqual(text, ast.TextElement("b\n\n  c\n"))
        assert isinstance(placeable, ast.Placeable) and isinstance(placeable.expression, ast.SelectExpression)
        self.assertEqual(placeable.expression.variants[0].value, ast.Pattern([ast.TextElement("e\nf")]))
        self.assertNotEqual(dovelectern.joined(tree), tree)

    def test_literals(self) -> None:
        value = ast.StringLiteral(r"a\\ \" \u00fc \U01F602 \ud800 \U110000").parse()
        self.assertEqual(value, {"value": 'a\\ " ü 😂 \ufffd \ufffd'})
        self.assertEqual(ast.NumberLiteral("-3.140").parse(), {"value": -3.14, "precision": 3})
        self.assertEqual(ast.NumberLiteral("5").parse(), {"value": 5.0, "precision": 0})

    def test_visitor(self) -> None:
        class Variables(dovelectern.Visitor):
            def __init__(self) -> None:
                self.found: "list[str]" = []

            def visit_VariableReference(self, node: ast.VariableReference) -> None:
                self.found.append(node.id.name)

        variables = Variables()
        variables.visit(dovelectern.parse("a = { $x }\n    .b = { $y ->\n       *[c] { F($z) }\n    }\n"))
        self.assertEqual(variables.found, ["x", "y", "z"])

    def test_transformer(self) -> None:
        class Shouting(dovelectern.Transformer):
            def visit_TextElement(self, node: ast.TextElement) -> ast.TextElement:
                return ast.TextElement(node.value.upper())

            def visit_Comment(self, node: ast.Comment) -> Optional[ast.Comment]:
                return None

            def visit_Term(self, node: ast.Term) -> Optional[ast.Term]:
                return None

        tree = dovelectern.parse("# c\na = b { $x }\n    .c = d\n-t = x\n\n# alone\n")
        changed = Shouting().visit(tree)
        self.assertIs(changed, tree)
        self.assertEqual(dovelectern.serialize(tree), "a = B { $x }\n    .c = D\n")


if __name__ == "__main__":
    unittest.main()
