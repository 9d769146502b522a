"""Edits of a text, and whether trees are canonical."""
import unittest
from typing import Any, Callable

import dovelectern
from dovelectern import ast
from texts import all_texts

TEXT = "# c\nhello   = Hi\n    .title = T\n\n\n-brand = B\nbro ken\nnone =\n    .a = é\nlast = L\n"


def message(name: str, *texts: str) -> ast.Message:
    return ast.Message(ast.Identifier(name), ast.Pattern([ast.TextElement(it) for it in texts]))


class Edits(unittest.TestCase):
    def test_set_value(self) -> None:
        for value in (" New { $x }", "New { $x }\n", b"New {$x}", bytearray(b"\n  New { $x }")):
            self.assertEqual(dovelectern.set_value(TEXT, "hello", value), TEXT.replace(" Hi", " New { $x }"))
        lines = ast.Pattern([ast.TextElement("a\n"), ast.TextElement("b")])
        self.assertEqual(dovelectern.set_value(TEXT.encode(), "-brand", lines),
                         TEXT.replace("-brand = B", "-brand =\n    a\n    b"))
        self.assertEqual(dovelectern.set_value("a = b", "a", "c"), "a = c\n")

    def test_entries(self) -> None:
        head, _, tail = TEXT.partition("-brand = B\n")
        self.assertEqual(dovelectern.replace(TEXT, "-brand", "# d\nnew = N"), f"{head}# d\nnew = N\n{tail}")
        self.assertEqual(dovelectern.replace(TEXT, "-brand", message("new", "N")), f"{head}new = N\n{tail}")
        self.assertEqual(dovelectern.insert(TEXT, message("new", "N"), before="-brand"),
                         f"{head}new = N\n-brand = B\n{tail}")
        self.assertEqual(dovelectern.insert(TEXT, "new=N"), TEXT + "new = N\n")
        self.assertEqual(dovelectern.insert("", "new=N"), "new = N\n")
        self.assertEqual(dovelectern.remove(TEXT, "-brand"), head + tail)
        self.assertEqual(dovelectern.remove(TEXT, "hello"), TEXT[TEXT.index("-brand"):])

    def test_set_attribute(self) -> None:
        self.assertEqual(dovelectern.set_attribute(TEXT, "hello", "title", "{$x}"), TEXT.replace("= T", "= { $x }"))
        self.assertEqual(dovelectern.set_attribute(TEXT, "none", "a", ast.Pattern.from_text("é")), TEXT)
        self.assertEqual(dovelectern.set_attribute(b"-a = b\n .c=d\n .c=e\n", "-a", "c", "f"),
                         "-a = b\n .c= f\n .c=e\n")

    def test_all(self) -> None:
        """Edits in any order; entries that are inserted at one place in theirs."""
        edits = [dovelectern.Insert("new=N"), dovelectern.Remove("-brand"), dovelectern.SetValue("hello", "V"),
                 dovelectern.SetAttribute("hello", "title", "{$x}"), dovelectern.Replace("last", message("last", "M")),
                 dovelectern.Insert("# d\nd = D", before="hello"), dovelectern.Insert(message("e", "E"), before="hello")]
        made = TEXT.replace(" Hi", " V").replace("= T", "= { $x }").replace("-brand = B\n", "").replace("= L", "= M")
        self.assertEqual(dovelectern.edit_all(TEXT, edits), f"# d\nd = D\ne = E\n{made}new = N\n")
        self.assertEqual(dovelectern.edit_all(TEXT.encode(), []), TEXT)
        many = "".join(f"m{number} = {number}\n" for number in range(300))
        changed = dovelectern.edit_all(many, [dovelectern.SetValue(f"m{number}", "v") for number in range(300)])
        self.assertEqual(changed, "".join(f"m{number} = v\n" for number in range(300)))

    def test_all_refused(self) -> None:
        remove, value = dovelectern.Remove("hello"), dovelectern.SetValue("hello", "V")
        edits: Any
        for error, edits in (
            (dovelectern.Overlap, [value, remove]),
            (dovelectern.Overlap, [remove, dovelectern.Replace("hello", "a = b")]),
            (dovelectern.NotFound, [remove, dovelectern.Remove("brand")]),
            (dovelectern.NotFound, [dovelectern.Insert("a = b", before="")]),
            (dovelectern.NoValue, [remove, dovelectern.SetValue("none", "V")]),
            (dovelectern.NotOneEntry, [remove, dovelectern.Insert("a = b\nc = d")]),
            (dovelectern.PartHasErrors, [remove, dovelectern.Insert("a")]),
            (dovelectern.ReadsOtherwise, [remove, dovelectern.Insert("#  ")]),
            (dovelectern.TooDeep, [dovelectern.SetValue("hello", "{" * 101)]),
            (TypeError, [remove, "hello"]),
        ):
            with self.subTest(error=error, edits=edits), self.assertRaises(error):
                dovelectern.edit_all(TEXT, edits)

    def test_lines(self) -> None:
        """Line ends are read as LF, and an entry at the end begins a line, also after a comment."""
        lines = ast.Pattern([ast.TextElement("a\n"), ast.TextElement("b")])
        self.assertEqual(ast.Pattern.from_text("a\r\nb"), lines)
        self.assertEqual(dovelectern.set_value("x = y", "x", lines), "x =\n    a\n    b\n")
        self.assertEqual(dovelectern.set_value("x = y\r\n", "x", "a\r\n  b"), "x =\n    a\n    b\n")
        self.assertEqual(dovelectern.insert("a = b", "c = d"), "a = b\nc = d\n")
        self.assertEqual(dovelectern.insert("# a", "c = d"), "# a\n\nc = d\n")
        whole = ast.Resource([message("x", "a\nb\n\n", "c", "d")])
        split = dovelectern.split(whole)
        self.assertEqual(split.body[0], message("x", "a\n", "b\n", "\n", "cd"))
        self.assertEqual(dovelectern.joined(split), dovelectern.joined(whole))
        self.assertTrue(dovelectern.is_canonical(split))

    def test_refused(self) -> None:
        call: Callable[[], Any]
        for error, told, call in (
            (dovelectern.NoValue, "with a value is named none", lambda: dovelectern.set_value(TEXT, "none", "N")),
            (dovelectern.NotFound, "no message or term is named brand", lambda: dovelectern.remove(TEXT, "brand")),
            (dovelectern.NotFound, "is named hello.title", lambda: dovelectern.replace(TEXT, "hello.title", "a = b")),
            (dovelectern.NotFound, "", lambda: dovelectern.insert(TEXT, "a = b", before="")),
            (dovelectern.NotOneEntry, "the value", lambda: dovelectern.set_value(TEXT, "hello", "N\nb = B")),
            (dovelectern.PartHasErrors, "the entry", lambda: dovelectern.replace(TEXT, "hello", "bro ken")),
            (dovelectern.NoValue, "such an attribute is named hello",
             lambda: dovelectern.set_attribute(TEXT, "hello", "label", "N")),
            (dovelectern.NotFound, "is named bye", lambda: dovelectern.set_attribute(TEXT, "bye", "title", "N")),
            (dovelectern.PartHasErrors, "the value", lambda: dovelectern.set_attribute(TEXT, "hello", "title", "{")),
            (dovelectern.NotOneEntry, "the entry", lambda: dovelectern.insert(TEXT, ast.Junk("junk"))),
            (dovelectern.ReadsOtherwise, "the new text", lambda: dovelectern.remove("x = { $a\nb = c\n->\n", "b")),
            (dovelectern.ReadsOtherwise, "the new text.*BlankCommentLine", lambda: dovelectern.insert(TEXT, "#  ")),
            (dovelectern.ReadsOtherwise, "the entry.*BraceInText",
             lambda: dovelectern.replace(TEXT, "hello", message("a", "{"))),
            (dovelectern.ReadsOtherwise, "the value.*LfWithinText",
             lambda: dovelectern.set_value(TEXT, "hello", ast.Pattern([ast.TextElement("a\nb")]))),
            (dovelectern.TooDeep, "one of the texts", lambda: dovelectern.set_value(TEXT, "hello", "{{ $a }}", nesting=1)),
            (ValueError, "an edition", lambda: dovelectern.remove(TEXT, "hello", edition=3)),
            (UnicodeDecodeError, "", lambda: dovelectern.remove(b"\xff", "hello")),
            (UnicodeEncodeError, "", lambda: dovelectern.remove(TEXT, "\ud800")),
        ):
            with self.subTest(error=error, told=told), self.assertRaisesRegex(error, told):
                call()

    def test_texts(self) -> None:
        """Of each text all but the value stays, its errors too; and the new text has the value."""
        changed = 0
        for text, _ in all_texts()[::4]:
            for name in ("key", "-t", "foo"):
                with self.subTest(text=text, name=name):
                    try:
                        made = dovelectern.set_value(text, name, "{ $new }")
                    except (dovelectern.NotFound, dovelectern.ReadsOtherwise):
                        continue
                    changed += 1
                    kinds = [it.kind for it in dovelectern.check(text)]
                    self.assertEqual([it.kind for it in dovelectern.check(made)], kinds)
                    tree, new = dovelectern.parse(text), dovelectern.parse(made)
                    (entry,) = [it for it, other in zip(tree.body, new.body) if it != other] or [None]
                    self.assertEqual(len(tree.body), len(new.body))
                    if isinstance(entry, (ast.Message, ast.Term)):
                        self.assertEqual(entry.id.name, name.lstrip("-"))
        self.assertGreater(changed, 100)


class Canonical(unittest.TestCase):
    def test_canonical(self) -> None:
        for tree, wanted in (
            (ast.Resource(), True), (ast.Resource([message("a", "b\n", "c")]), True),
            (ast.Resource([message("a", "b\nc")]), False), (ast.Resource([message("a", "{")]), False),
            (ast.Resource([message("a", "b"), ast.Junk("junk")]), False), (ast.Resource([ast.Comment("  ")]), False),
        ):
            for edition in (1, 2):
                self.assertIs(dovelectern.is_canonical(tree, edition=edition), wanted)
        wrong: Any = ast.Resource([5])
        with self.assertRaisesRegex(TypeError, r"body\[0\] is int"):
            dovelectern.is_canonical(wrong)
        with self.assertRaises(ValueError):
            dovelectern.is_canonical(ast.Resource(), edition=3)

    def test_first_uncanonical(self) -> None:
        for tree, wanted in (
            (ast.Resource(), None), (ast.Resource([message("a", "b"), message("a", "{")]), (1, "BraceInText")),
            (ast.Resource([ast.Comment("  ")]), (0, "BlankCommentLine")),
        ):
            found = dovelectern.first_uncanonical(tree)
            self.assertEqual(found, wanted and dovelectern.Uncanonical(*wanted))
        with self.assertRaises(dovelectern.ReadsOtherwise) as raised:
            dovelectern.serialize(ast.Resource([message("a", "b"), message("c", " d")]))
        self.assertEqual((str(raised.exception)[:7], raised.exception.rule), ("body[1]", "LeadingSpace"))

    def test_reads_back(self) -> None:
        """A canonical tree is what its text is read as."""
        count = 0
        for text, _ in all_texts():
            tree = dovelectern.parse(text)
            if dovelectern.is_canonical(tree):
                count += 1
                self.assertEqual(dovelectern.parse(dovelectern.serialize(tree)), tree)
        self.assertGreater(count, 300)


if __name__ == "__main__":
    unittest.main()
