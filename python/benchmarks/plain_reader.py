"""A reader in Python alone, written from docs/GRAMMAR.md, into the nodes of dovelectern.ast: a peer for speed.py.

It reads what the grammar's edition one reads, gives no spans and no errors, and looks at no rule beyond the grammar.
"""
import re
from typing import List, Match, Optional, Tuple, Union

from dovelectern import ast

NAME = re.compile(r"[a-zA-Z][a-zA-Z0-9_-]*")
NUMBER = re.compile(r"-?[0-9]+(?:\.[0-9]+)?")
STRING = re.compile(r'"((?:[^"\\\n]|\\["\\]|\\u[0-9a-fA-F]{4}|\\U[0-9a-fA-F]{6})*)"')
BLANK = re.compile(r"[ \n]*")
INLINE = re.compile(r" *")
TEXT = re.compile(r"[^{}\n]+")
# the lines before the next line of a pattern, and its indentation
CONTINUES = re.compile(r"\n((?: *\n)*)( *)(?:(?=\{)|(?<= )(?=[^ \n}.\[*{]))")
COMMENT = re.compile(r"(#{1,3})(?: ([^\n]*))?(?:\n|\Z)")
ID = re.compile(r"(-?)([a-zA-Z][a-zA-Z0-9_-]*) *=")
ATTRIBUTE = re.compile(r"\n[ \n]*\.([a-zA-Z][a-zA-Z0-9_-]*) *= *")
VARIANT = re.compile(r"[ \n]*\n *(\*?)\[[ \n]*(?:(-?[0-9]+(?:\.[0-9]+)?)|([a-zA-Z][a-zA-Z0-9_-]*))[ \n]*\] *")
ENTRY = re.compile(r"^[a-zA-Z#-]", re.M)
LINE_END = re.compile(r" *(?:\n|\Z)")
COMMENTS = {"#": ast.Comment, "##": ast.GroupComment, "###": ast.ResourceComment}
Piece = Union[Tuple[int, str], ast.Placeable]


class Refused(Exception):
    """No construct stands there."""


class Reader:
    def __init__(self, text: str) -> None:
        self.text = text.replace("\r\n", "\n")
        self.at = 0

    def take(self, form: "re.Pattern[str]") -> Optional[Match[str]]:
        match = form.match(self.text, self.at)
        if match:
            self.at = match.end()
        return match

    def want(self, form: "re.Pattern[str]") -> Match[str]:
        match = self.take(form)
        if match is None:
            raise Refused
        return match

    def sees(self, sign: str) -> bool:
        if not self.text.startswith(sign, self.at):
            return False
        self.at += len(sign)
        return True

    def resource(self) -> ast.Resource:
        body: List[ast.AnyEntry] = []
        comment: Optional[ast.Comment] = None
        while True:
            before = self.at
            while self.at < len(self.text) and self.take(LINE_END):
                pass
            if comment is not None and (self.at != before or self.at == len(self.text)):
                body.append(comment)
                comment = None
            if self.at == len(self.text):
                return ast.Resource(body)
            entry = self.entry()
            if comment is not None:
                if isinstance(entry, (ast.Message, ast.Term)):
                    entry.comment = comment
                else:
                    body.append(comment)
                comment = None
            if isinstance(entry, ast.Comment):
                comment = entry
            else:
                body.append(entry)

    def entry(self) -> ast.AnyEntry:
        start = self.at
        try:
            if self.text[start] == "#":
                return self.comment()
            return self.named()
        except (Refused, IndexError):
            following = ENTRY.search(self.text, self.text.find("\n", start) + 1 or len(self.text))
            self.at = following.start() if following else len(self.text)
            return ast.Junk(self.text[start:self.at])

    def comment(self) -> "Union[ast.Comment, ast.GroupComment, ast.ResourceComment]":
        first = self.want(COMMENT)
        lines = [first[2] or ""]
        while True:
            line = COMMENT.match(self.text, self.at)
            if line is None or line[1] != first[1]:
                return COMMENTS[first[1]]("\n".join(lines))
            lines.append(line[2] or "")
            self.at = line.end()

    def named(self) -> "Union[ast.Message, ast.Term]":
        is_term, name = self.want(ID).groups()
        self.take(INLINE)
        value = self.pattern()
        attributes = []
        while True:
            match = self.take(ATTRIBUTE)
            if match is None:
                break
            pattern = self.pattern()
            if pattern is None:
                raise Refused
            attributes.append(ast.Attribute(ast.Identifier(match[1]), pattern))
        self.want(LINE_END)
        if is_term:
            if value is None:
                raise Refused
            return ast.Term(ast.Identifier(name), value, attributes)
        if value is None and not attributes:
            raise Refused
        return ast.Message(ast.Identifier(name), value, attributes)

    def pattern(self) -> Optional[ast.Pattern]:
        pieces: List[Piece] = []
        indents: List[int] = []
        while True:
            text = self.take(TEXT)
            if text:
                pieces.append((-1, text[0]))
            elif self.text.startswith("{", self.at):
                pieces.append(self.placeable())
            else:
                line = self.take(CONTINUES)
                if line is None:
                    return self.made(pieces, min(indents, default=0))
                indents.append(len(line[2]))
                pieces.append((len(line[2]), "\n" * (1 + line[1].count("\n")) if pieces else ""))

    @staticmethod
    def made(pieces: List[Piece], common: int) -> Optional[ast.Pattern]:
        elements: List[ast.PatternElement] = []
        for piece in pieces:
            if isinstance(piece, ast.Placeable):
                elements.append(piece)
                continue
            indent, text = piece
            if indent >= 0:
                text += " " * (indent - common)
            if not text:
                continue
            if elements and isinstance(elements[-1], ast.TextElement):
                elements[-1].value += text
            else:
                elements.append(ast.TextElement(text))
        if elements and isinstance(elements[-1], ast.TextElement):
            elements[-1].value = elements[-1].value.rstrip(" \n")
            if not elements[-1].value:
                elements.pop()
        return ast.Pattern(elements) if elements else None

    def placeable(self) -> ast.Placeable:
        self.at += 1
        self.take(BLANK)
        expression: ast.PlaceableExpression = self.inline()
        self.take(BLANK)
        if self.sees("->"):
            expression = ast.SelectExpression(expression, self.variants())
            self.take(BLANK)
        if not self.sees("}"):
            raise Refused
        return ast.Placeable(expression)

    def variants(self) -> List[ast.Variant]:
        self.take(INLINE)
        found = []
        while True:
            match = self.take(VARIANT)
            if match is None:
                break
            value = self.pattern()
            if value is None:
                raise Refused
            key = ast.NumberLiteral(match[2]) if match[2] else ast.Identifier(match[3])
            found.append(ast.Variant(key, value, bool(match[1])))
        if sum(it.default for it in found) != 1:
            raise Refused
        return found

    def inline(self) -> ast.InlineExpression:
        sign = self.text[self.at]
        if sign == "{":
            return self.placeable()
        if sign == '"':
            return ast.StringLiteral(self.want(STRING)[1])
        if sign == "$":
            self.at += 1
            return ast.VariableReference(self.name())
        number = self.take(NUMBER)
        if number:
            return ast.NumberLiteral(number[0])
        if sign == "-":
            self.at += 1
            name = self.name()
            return ast.TermReference(name, self.attribute(), self.arguments())
        name = self.name()
        arguments = self.arguments()
        if arguments is not None:
            return ast.FunctionReference(name, arguments)
        return ast.MessageReference(name, self.attribute())

    def name(self) -> ast.Identifier:
        return ast.Identifier(self.want(NAME)[0])

    def attribute(self) -> Optional[ast.Identifier]:
        return self.name() if self.sees(".") else None

    def arguments(self) -> Optional[ast.CallArguments]:
        before = self.at
        self.take(BLANK)
        if not self.sees("("):
            self.at = before
            return None
        made = ast.CallArguments()
        self.take(BLANK)
        while not self.sees(")"):
            argument = self.inline()
            self.take(BLANK)
            if isinstance(argument, ast.MessageReference) and argument.attribute is None and self.sees(":"):
                self.take(BLANK)
                made.named.append(ast.NamedArgument(argument.id, self.inline()))
                self.take(BLANK)
            elif made.named:
                raise Refused
            else:
                made.positional.append(argument)
            if not self.sees(","):
                if not self.sees(")"):
                    raise Refused
                break
            self.take(BLANK)
        return made


def parse(text: str) -> ast.Resource:
    """The tree of the text."""
    return Reader(text).resource()
