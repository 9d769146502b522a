"""Times the package over real files, beside a reader in Python alone: speed.py FOLDER

FOLDER has `.ftl` files, as they come out of archives. Each turn is over all of them as one text, and over each by
itself; the best of the turns is printed, in milliseconds of the processor, and whether the peer reads each file to the
same tree.
"""
import pathlib
import sys
import time
from typing import Any, Callable

import dovelectern
import plain_reader

TURNS = 3


def best(call: Callable[[], Any]) -> float:
    times = []
    for _ in range(TURNS):
        since = time.process_time()
        call()
        times.append(time.process_time() - since)
    return min(times) * 1000


def without_annotations(tree: dovelectern.ast.Resource) -> dovelectern.ast.Resource:
    for it in tree.body:
        if isinstance(it, dovelectern.ast.Junk):
            it.annotations = []
    return tree


def main() -> None:
    files = [it.read_bytes() for it in sorted(pathlib.Path(sys.argv[1]).rglob("*.ftl"))]
    whole = b"\n".join(files)
    text, texts = whole.decode(), [it.decode() for it in files]
    same = sum(dovelectern.joined(without_annotations(dovelectern.parse(it))) == plain_reader.parse(it) for it in texts)
    print(f"{len(files)} files, {len(whole)} bytes; {same} are read to the same tree")
    tree = dovelectern.parse(text)
    print(f"{len(tree.body)} entries")
    for name, call in (
        ("check", lambda: dovelectern.check(text)),
        ("check of each file", lambda: [dovelectern.check(it) for it in texts]),
        ("format", lambda: dovelectern.format(text, drop_junk=True)),
        ("parse", lambda: dovelectern.parse(text)),
        ("parse without spans", lambda: dovelectern.parse(text, with_spans=False)),
        ("parse with spans of elements", lambda: dovelectern.parse(text, element_spans=True)),
        ("parse of each file", lambda: [dovelectern.parse(it) for it in texts]),
        ("serialize", lambda: dovelectern.serialize(tree)),
        ("serialize as it is", lambda: dovelectern.serialize(tree, strict=False)),
        ("the peer's parse", lambda: plain_reader.parse(text)),
        ("the peer's parse of each file", lambda: [plain_reader.parse(it) for it in texts]),
    ):
        print(f"{name}: {best(call):.0f}", flush=True)


if __name__ == "__main__":
    main()
