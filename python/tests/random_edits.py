"""Random edits of random texts, looked over by a reader in Python alone: random_edits.py [EDITS [SEED]]

The texts are those with known answers, and texts of entries out of these, some with a letter changed. Each edit is
asked of the package, and so of the library for C. Where it is made, the new text may differ from the old one in the
stretch of that entry alone, and benchmarks/plain_reader.py has to read it as the old tree with the edit made; where it
is refused, the reason has to be the right one. An edit that would be read otherwise is only counted. It prints what it
saw; the status is 1 where something was wrong.
"""
import collections
import pathlib
import random
import re
import sys
from typing import Any, Callable, Counter, List, NamedTuple, Optional, Tuple

sys.path.insert(0, str(pathlib.Path(__file__).resolve().parents[1] / "benchmarks"))
import dovelectern
import plain_reader
from dovelectern import ast
from texts import all_texts

VALUES = [" New", "{ $new }", "\n    one\n    two\n", " a { b.c } d",
          "{ $n ->\n  [one] x\n *[other] { -t(a: \"b\") }\n}", "", " a\r\n b", "{", " x\ny = z", ' { "\\u00e9" } é', "  [x]", " .a = b", " x\n .a = b"]
ENTRIES = ["new = N", "-new = N\n", "# c\nnew = N\n .a = A\n", "# c", "## g\n", "### r", "bro ken", "a = b\nc = d",
           "", "#", "new =\r\n    .x = y\r\n", "new = { $a ->\n *[b] c\n}\n\n"]
REFUSALS = (dovelectern.NoValue, dovelectern.NotFound, dovelectern.PartHasErrors, dovelectern.NotOneEntry,
            dovelectern.ReadsOtherwise)


# blank lines, which are written as LFs behind an entry that is changed
BLANK_LINES = re.compile(r"(?: *\n)*(?: *\Z)?")


class Found(NamedTuple):
    """An entry, and its stretch in the text with LFs for CRLFs, with the blank lines behind it: from the comment that
    is attached to it, and from its name."""

    node: Any
    first: int
    start: int
    end: int


class Reader(plain_reader.Reader):
    """Notes where each entry is."""

    def entry(self) -> ast.AnyEntry:
        start = self.at
        node = super().entry()
        self.stretches.append((start, self.at))
        return node

    def found(self) -> List[Found]:
        self.stretches: List[Tuple[int, int]] = []
        body, stretches, found = self.resource().body, iter(self.stretches), []
        for node in body:
            first, end = next(stretches)
            start = first
            if getattr(node, "comment", None) is not None:
                start, end = next(stretches)
            found.append(Found(node, first, start, BLANK_LINES.match(self.text, end).end()))  # type: ignore[union-attr]
        return found


def name_of(node: Any) -> str:
    return ("-" if isinstance(node, ast.Term) else "") + node.id.name if hasattr(node, "id") else ""


def reads(text: str) -> Optional[List[Found]]:
    """The entries, where both readers find the same."""
    found = Reader(text).found()
    tree = dovelectern.joined(dovelectern.parse(text, with_spans=False))
    for it in tree.body:
        if isinstance(it, ast.Junk):
            it.annotations = []
            it.content = it.content.replace("\r\n", "\n")
    return found if tree.body == [it.node for it in found] else None


def only(part: str) -> Any:
    """The one entry of a part, or why it is none."""
    body = plain_reader.parse(part).body
    if any(isinstance(it, ast.Junk) for it in body):
        return dovelectern.PartHasErrors
    return body[0] if len(body) == 1 else dovelectern.NotOneEntry


def only_value(part: str) -> Any:
    entry = only("a =" + part)
    if isinstance(entry, type):
        return entry
    is_one = isinstance(entry, ast.Message) and entry.value is not None and not entry.attributes
    return entry.value if is_one else dovelectern.NotOneEntry


class Edit(NamedTuple):
    what: str
    call: Callable[[], str]
    part: Any
    name: str
    attribute: str = ""


def random_edit(text: str, found: List[Found], some: random.Random) -> Edit:
    names = [it for it in map(lambda one: name_of(one.node), found) if it]
    name = some.choice(names) if names and some.random() < 0.95 else some.choice(["no", "-no", "key.a"])
    value, entry = some.choice(VALUES), some.choice(ENTRIES)
    which = ["set_value", "set_value", "set_attribute", "replace", "insert", "remove", "append"]
    what = some.choice(which if names else which[-2:])
    if what == "set_value":
        return Edit(what, lambda: dovelectern.set_value(text, name, value), only_value(value), name)
    if what == "set_attribute":
        own = [a.id.name for it in found if name_of(it.node) == name for a in it.node.attributes]
        attribute = some.choice(own or ["a"])
        return Edit(what, lambda: dovelectern.set_attribute(text, name, attribute, value), only_value(value), name,
                    attribute)
    if what == "replace":
        return Edit(what, lambda: dovelectern.replace(text, name, entry), only(entry), name)
    if what == "insert":
        return Edit(what, lambda: dovelectern.insert(text, entry, before=name), only(entry), name)
    if what == "append":
        return Edit(what, lambda: dovelectern.insert(text, entry), only(entry), "")
    return Edit(what, lambda: dovelectern.remove(text, name), None, name)


def wanted(edit: Edit, found: List[Found]) -> Any:
    """The body that is wanted and the stretch that may change, from and to; or the refusals that may come."""
    body = [it.node for it in found]
    if edit.what == "append":
        return edit.part if isinstance(edit.part, type) else ([*body, edit.part], None, None)
    at = next((number for number, it in enumerate(found) if name_of(it.node) == edit.name), None)
    if at is None:
        return dovelectern.NotFound
    if isinstance(edit.part, type):
        return edit.part
    here = found[at]
    if edit.what in ("set_value", "set_attribute"):
        node = here.node.clone()
        holder = node
        if edit.what == "set_attribute":
            holder = next((it for it in node.attributes if it.id.name == edit.attribute), None)
        if holder is None or holder.value is None:
            return dovelectern.NoValue
        holder.value = edit.part
        return [*body[:at], node, *body[at + 1:]], here.start, here.end
    if edit.what == "insert":
        return [*body[:at], edit.part, *body[at:]], here.first, here.first
    if edit.what == "replace":
        return [*body[:at], edit.part, *body[at + 1:]], here.first, here.end
    following = found[at + 1].first if at + 1 < len(found) else None
    return [*body[:at], *body[at + 1:]], here.first, following


def is_kept(text: str, new: str, start: Optional[int], end: Optional[int]) -> bool:
    """Whether all before the stretch and all after it is as it was; places are those of the text with LFs for CRLFs."""
    places = [it.start() for it in re.finditer(r"\r\n|[\s\S]", text)] + [len(text)]
    before = text if start is None else text[:places[start]]
    after = "" if end is None else text[places[end]:]
    return new.startswith(before) and new.endswith(after) and len(new) >= len(before) + len(after)


def wrong(edit: Edit, text: str, found: List[Found], counted: Counter[str]) -> Optional[str]:
    """What is wrong with the edit, if something is."""
    right = wanted(edit, found)
    try:
        new = edit.call()
    except REFUSALS as error:
        counted[type(error).__name__] += 1
        if type(error) is dovelectern.ReadsOtherwise:
            return None
        both = {right, edit.part if isinstance(edit.part, type) else right} if isinstance(right, type) else set()
        return None if type(error) in both else f"refused as {error!r}"
    counted[edit.what] += 1
    if isinstance(right, type):
        return f"not refused as {right.__name__}: {new!r}"
    body, start, end = right
    if not is_kept(text, new, start, end):
        return f"changed elsewhere: {new!r}"
    return None if plain_reader.parse(new).body == body else f"read otherwise: {new!r}"


def several_wrong(text: str, found: List[Found], some: random.Random, counted: Counter[str]) -> Optional[str]:
    """What is wrong with some edits in one call, of as many entries, beside the same made one by one; where one of
    these is refused nothing is said."""
    names = list(dict.fromkeys(it for it in map(lambda one: name_of(one.node), found) if it))
    chosen = some.sample(names, min(len(names), some.randint(1, 4)))
    edits: List[dovelectern.Edit] = []
    for name in chosen:
        value, entry = some.choice(VALUES), some.choice(ENTRIES)
        edits.append(some.choice([dovelectern.SetValue(name, value), dovelectern.Replace(name, entry),
                                  dovelectern.Insert(entry, before=name), dovelectern.Remove(name)]))
    places = {name: number for number, name in reversed(list(enumerate(map(lambda one: name_of(one.node), found))))}
    one_by_one = text
    try:
        for name, edit in sorted(zip(chosen, edits), key=lambda it: -places[it[0]]):
            if isinstance(edit, dovelectern.SetValue):
                one_by_one = dovelectern.set_value(one_by_one, name, edit.value)
            elif isinstance(edit, dovelectern.Replace):
                one_by_one = dovelectern.replace(one_by_one, name, edit.entry)
            elif isinstance(edit, dovelectern.Insert):
                one_by_one = dovelectern.insert(one_by_one, edit.entry, before=name)
            else:
                one_by_one = dovelectern.remove(one_by_one, name)
    except REFUSALS:
        return None
    counted["several"] += 1
    try:
        new = dovelectern.edit_all(text, edits)
    except (*REFUSALS, dovelectern.Overlap) as error:
        return f"{edits} refused together as {error!r}"
    if plain_reader.parse(new).body == plain_reader.parse(one_by_one).body:
        return None
    return f"{edits} make {new!r} together, and {one_by_one!r} one by one"


def random_text(texts: List[str], entries: List[str], some: random.Random) -> str:
    text = some.choice(texts) if some.random() < 0.3 else "".join(some.choices(entries, k=some.randint(1, 6)))
    if text and some.random() < 0.2:
        at = some.randrange(len(text))
        text = text[:at] + some.choice(" \n{}.=#-aé\"*[") + text[at + some.randint(0, 1):]
    if some.random() < 0.1:
        text = re.sub(r"(?<!\r)\n", "\r\n", text)
    return text


def main(edits: int = 100_000, seed: int = 1) -> int:
    some, counted, faults, done = random.Random(seed), collections.Counter[str](), 0, 0
    texts = [text for text, _ in all_texts()]
    entries = [text + "\n" * (not text.endswith("\n")) for text in texts if 0 < len(text) < 200]
    while done < edits and faults < 20:
        text = random_text(texts, entries, some)
        found = reads(text)
        if found is None:
            counted["texts left out"] += 1
            continue
        counted["texts"] += 1
        for _ in range(8):
            edit = random_edit(text, found, some)
            why = wrong(edit, text, found, counted)
            done += 1
            if why is not None:
                faults += 1
                print(f"{edit.what} {edit.name} {edit.attribute} {edit.part} of {text!r}: {why}", flush=True)
        why = several_wrong(text, found, some, counted)
        if why is not None:
            faults += 1
            print(f"of {text!r}: {why}", flush=True)
        if done % 50_000 == 0:
            print(done, dict(counted), flush=True)
    print(f"{done} edits, {faults} faults: {dict(counted)}")
    return 1 if faults else 0


if __name__ == "__main__":
    sys.exit(main(*map(int, sys.argv[1:])))
