"""Mistakes between names. What is wanted is written by hand from docs/LINT.md, and its examples are run."""
import re
import unittest
from typing import Any, Dict, List, Optional, Tuple

import dovelectern
from dovelectern import _library
from dovelectern.ast import Span
from texts import TOP, all_texts

SEVERITIES = {
    "defined-twice": "error", "attribute-twice": "error", "undefined-message": "error", "undefined-term": "error",
    "undefined-attribute": "error", "undefined-value": "error", "cyclic-reference": "error",
    "variant-twice": "warning", "plural-category": "warning",
    "missing": "error", "missing-value": "error",
    "missing-attribute": "error", "missing-reference": "warning", "obsolete": "warning", "obsolete-value": "warning",
    "obsolete-attribute": "warning", "unknown-variable": "error", "obsolete-reference": "warning",
    "unknown-function": "warning",
}
LINKS = """hello = { place } { -brand } { hello.u } { only }
hello = Grüße
    .t = T
    .t = U
only =
    .label = L
loop = { loop }
many = { $n ->
    [one] x
    [one] y
   *[other] z
 }
"""
REFERENCE = """hello = Hello { $user } { -brand }
    .title = Greeting
name = Name
    .label = L
about = About
-brand = Firefox
"""
OTHER = """hello = Hallo { $usr }
name =
    .label = L
    .more = M
old = Alt
-brand = Firefox
bro ken
"""

Where = Optional[Tuple[int, int, int, str]]


def where(place: Optional[dovelectern.Place], texts: List[str]) -> Where:
    """The text, the line, the column and the name of a place."""
    if place is None:
        return None
    return place.text, place.line, place.column, texts[place.text][place.span.start:place.span.end]


def told(findings: List[dovelectern.Finding], *texts: str) -> List[Tuple[str, Where, Where]]:
    for it in findings:
        assert it.severity == SEVERITIES[it.kind], it
        for place in (it.place, it.other):
            assert place is None or it.name == where(place, list(texts))[3], it
    return [(it.kind, where(it.place, list(texts)), where(it.other, list(texts))) for it in findings]


def of_the_page() -> "List[Tuple[str, Dict[str, str]]]":
    """Of each kind in docs/LINT.md the texts of its example: one, or a reference and a translation."""
    page = (TOP / "docs/LINT.md").read_text()
    found = []
    for title, text in re.findall(r"^### (.*?)\n(.*?)(?=^##)", page, re.M | re.S):
        example = re.search(r"```\n(.*?)```", text, re.S)
        if not example:
            continue
        side, texts = "one", {}
        for line in example[1].splitlines():
            marked = re.search(r"\s+\((reference|translation)\)$", line)
            if marked:
                side, line = marked[1], line[:marked.start()]
            texts[side] = texts.get(side, "") + line + "\n"
        found.append((re.findall(r"`([\w-]+)`", title)[0], texts))
    return found


class Findings(unittest.TestCase):
    def test_examples_of_the_page(self) -> None:
        examples = of_the_page()
        self.assertGreater(len(examples), 10)
        for kind, texts in examples:
            if kind == "plural-category":  # wants the folder of a language
                continue
            if "one" in texts:
                findings = dovelectern.lint(texts["one"])
            else:
                findings = dovelectern.compare(texts.get("reference", ""), texts.get("translation", ""))
            self.assertEqual([it.kind for it in findings], [kind], texts)

    def test_one_text(self) -> None:
        findings = dovelectern.lint(LINKS)
        self.assertEqual(told(findings, LINKS), [
            ("undefined-message", (0, 1, 11, "place"), None),
            ("undefined-term", (0, 1, 22, "brand"), None),
            ("undefined-attribute", (0, 1, 38, "u"), None),
            ("undefined-value", (0, 1, 44, "only"), None),
            ("defined-twice", (0, 2, 1, "hello"), (0, 1, 1, "hello")),
            ("attribute-twice", (0, 4, 6, "t"), (0, 3, 6, "t")),
            ("cyclic-reference", (0, 7, 10, "loop"), None),
            ("variant-twice", (0, 10, 6, "one"), (0, 9, 6, "one")),
        ])
        self.assertEqual([it.message for it in findings], [
            "no text defines the message `place`", "no text defines the term `-brand`",
            "no text defines its attribute `u`", "no text gives the message `only` a value",
            "`hello` is defined twice, first on line 1", "the entry has the attribute `t` twice, first on line 3",
            "`loop` leads back to this reference", "the select has the variant `one` twice, first on line 9",
        ])
        self.assertEqual(str(findings[1]), "1:22: error[undefined-term]: no text defines the term `-brand`")

    def test_several_texts(self) -> None:
        texts = ["a = { b } { c }\n", "", "b = { -t.x ->\n   *[o] { a }\n }\nbro ken\n", "-t = T\n"]
        self.assertEqual(told(dovelectern.lint(texts), *texts), [
            ("cyclic-reference", (0, 1, 7, "b"), None), ("undefined-message", (0, 1, 13, "c"), None),
            ("undefined-attribute", (2, 1, 10, "x"), None), ("cyclic-reference", (2, 2, 11, "a"), None)])
        wanted = dovelectern.lint(texts)
        self.assertEqual(dovelectern.lint(it.encode() for it in texts), wanted)
        self.assertEqual(dovelectern.lint(tuple(texts)), wanted)
        self.assertEqual(dovelectern.lint(texts[0]), dovelectern.lint([texts[0]]))
        self.assertEqual(dovelectern.lint([]), [])
        self.assertEqual(dovelectern.lint(["", b""]), [])

    def test_compared(self) -> None:
        findings = dovelectern.compare(REFERENCE, OTHER)
        self.assertEqual(told(findings, REFERENCE, OTHER), [
            ("missing-reference", None, (0, 1, 28, "brand")),
            ("missing-attribute", None, (0, 2, 6, "title")),
            ("missing-value", None, (0, 3, 1, "name")),
            ("missing", None, (0, 5, 1, "about")),
            ("unknown-variable", (1, 1, 18, "usr"), None),
            ("obsolete-attribute", (1, 4, 6, "more"), None),
            ("obsolete", (1, 5, 1, "old"), None),
        ])
        self.assertEqual([it.message for it in findings], [
            "a reference to `brand`, as on line 1 of the reference, is missing",
            "the attribute `title` of line 2 of the reference is missing",
            "the value of `name` of line 3 of the reference is missing",
            "`about` of line 5 of the reference is missing",
            "the reference does not use `$usr`",
            "the reference does not define the attribute `more`",
            "the reference does not define `old`",
        ])
        self.assertEqual(str(findings[3]), "error[missing]: `about` of line 5 of the reference is missing")
        (value,) = dovelectern.compare("a =\n    .b = B\n", "a = A\n    .b = B\n")
        self.assertEqual((value.kind, value.message), ("obsolete-value", "the reference gives `a` no value"))
        (more,) = dovelectern.compare("a = A\n", "a = A { b.c }\n")
        self.assertEqual((more.kind, more.message), ("obsolete-reference", "the reference's entry does not refer to `b`"))
        self.assertEqual(told([more], "a = A\n", "a = A { b.c }\n"), [("obsolete-reference", (1, 1, 9, "b"), None)])
        (call,) = dovelectern.compare("a = A\n", "a = { F() }\n")
        self.assertEqual((call.kind, call.message), ("unknown-function", "the reference does not call `F`"))
        self.assertEqual(dovelectern.compare(REFERENCE, REFERENCE), [])

    def test_columns(self) -> None:
        text = "a = é€😀 { x } 😀{ y }\n"
        found = []
        for it in dovelectern.lint(text):
            assert it.place is not None
            place = it.place
            found.append((it.name, place.line, place.column, place.column_utf16, place.column_bytes, place.span))
        self.assertEqual(found, [("x", 1, 11, 12, 17, Span(10, 11)), ("y", 1, 18, 20, 27, Span(17, 18))])
        (twice,) = dovelectern.lint("b = 😀\nü\na = A\nb = B\n")
        self.assertEqual(twice.other, dovelectern.Place(0, 1, 1, 1, 1, Span(0, 1)))
        self.assertEqual(twice.place, dovelectern.Place(0, 4, 1, 1, 1, Span(14, 15)))

    def test_a_long_line(self) -> None:
        """Many places on one line: each has its column, and the time is that of one walk."""
        text = "a = " + "ü{ b }" * 50_000 + "\n"
        findings = dovelectern.lint(text)
        self.assertEqual(len(findings), 50_000)
        self.assertEqual([it.place.column for it in findings if it.place], list(range(8, 8 + 6 * 50_000, 6)))
        self.assertEqual([it.place.column_bytes for it in findings if it.place], list(range(9, 9 + 7 * 50_000, 7)))

    def test_editions(self) -> None:
        text = "a = { b }\n"
        self.assertEqual(dovelectern.lint(text, edition=2), dovelectern.lint(text))
        self.assertEqual(dovelectern.compare(text, "", edition=2), dovelectern.compare(text, ""))

    def test_what_is_refused(self) -> None:
        other: Any
        for other in (None, 5, 1.5, object()):
            for call in (lambda: dovelectern.lint(other), lambda: dovelectern.lint([other]),
                         lambda: dovelectern.compare(other, ""), lambda: dovelectern.compare("", other)):
                with self.assertRaises(TypeError):
                    call()
        bad = b"b = \xff\n"
        for call in (lambda: dovelectern.lint(["a = A\n", bad]), lambda: dovelectern.compare("", bad)):
            with self.assertRaises(UnicodeDecodeError) as raised:
                call()
            self.assertEqual(raised.exception.start, 4)
        deep = "k = {{{ $a }}}\n"
        for call in (lambda: dovelectern.lint(["", deep], nesting=2), lambda: dovelectern.compare(deep, "", nesting=2)):
            with self.assertRaisesRegex(dovelectern.TooDeep, "one of the texts"):
                call()
        self.assertEqual(dovelectern.lint(["", deep], nesting=3), [])
        for call in (lambda: dovelectern.lint("", edition=3), lambda: dovelectern.compare("", "", edition=0),
                     lambda: dovelectern.lint("", nesting=-1)):
            with self.assertRaises(ValueError):
                call()

    def test_kinds(self) -> None:
        names = [_library.finding_kind_name(number) for number in [*range(1, 10), *range(101, 111)]]
        self.assertEqual(names, list(SEVERITIES))
        for number in (0, 10, 100, 111, 2**32 - 1):
            with self.assertRaises(ValueError):
                _library.finding_kind_name(number)

    def test_every_text(self) -> None:
        """Each place has its name, and each text beside itself has no finding."""
        texts = [text for text, _ in all_texts()]
        for text in texts:
            told(dovelectern.lint(text), text)
            self.assertEqual(dovelectern.compare(text, text), [])
        for one, other in zip(texts, texts[1:]):
            there, back = dovelectern.compare(one, other), dovelectern.compare(other, one)
            told(there, one, other)
            # what one lacks is obsolete in the other
            for missing, obsolete in (("missing", "obsolete"), ("missing-attribute", "obsolete-attribute"),
                                      ("missing-value", "obsolete-value"), ("missing-reference", "obsolete-reference")):
                self.assertEqual([it.other.span for it in there if it.kind == missing and it.other],
                                 [it.place.span for it in back if it.kind == obsolete and it.place])
        told(dovelectern.lint(texts), *texts)


if __name__ == "__main__":
    unittest.main()
