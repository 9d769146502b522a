"""Whether a written tree is read as it was: without its junk, and with successive texts as one."""
import json
from typing import Any, Dict, List, Optional

Value = Dict[str, Any]


def first_changed(written: str, read: str) -> Optional[int]:
    """The number of the first entry of a tree that is not read as it was; `None` if all are.

    `written` is the JSON of the tree, as the library takes it, and `read` what the library gave for its text.
    """
    entries = [(number, it) for number, it in enumerate(json.loads(written)["body"]) if it["type"] != "Junk"]
    found = json.loads(read)["body"]
    for (number, entry), other in zip(entries, found):
        if not _is_read_as(entry, other):
            return number
    if len(entries) == len(found):
        return None
    return entries[min(len(found), len(entries) - 1)][0]


def _is_read_as(value: Any, read: Any) -> bool:
    """Whether the value is what was read; it may have keys more, which the form of a tree does not look at."""
    if isinstance(read, dict):
        return isinstance(value, dict) and all(
            _are_read_as(_joined(value.get(key)), _joined(below)) if key == "elements" else
            _is_read_as(value.get(key), below) for key, below in read.items())
    if isinstance(read, list):
        return isinstance(value, list) and _are_read_as(value, read)
    return bool(value == read)


def _are_read_as(values: List[Any], read: List[Any]) -> bool:
    return len(values) == len(read) and all(map(_is_read_as, values, read))


def _joined(elements: Any) -> List[Any]:
    """The elements, with successive texts as one, and without empty texts."""
    joined: List[Any] = []
    for element in elements or []:
        if element["type"] != "TextElement":
            joined.append(element)
        elif joined and isinstance(joined[-1], str):
            joined[-1] += element["value"]
        elif element["value"]:
            joined.append(element["value"])
    return joined
