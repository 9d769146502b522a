"""Places in bytes as places in characters."""
import re
from typing import Dict, Iterable, List

# the bytes of UTF-8 that begin no character
_CONTINUATIONS = bytes(range(0x80, 0xC0))


def characters(text: bytes) -> int:
    """How many characters begin in the bytes."""
    return len(text) if text.isascii() else len(text.translate(None, _CONTINUATIONS))


def utf16_units(text: bytes) -> int:
    """How many UTF-16 units the characters are that begin in the bytes: two each of those that four bytes spell."""
    return characters(text) + sum(byte >= 0xF0 for byte in text)


def line_starts(text: bytes) -> List[int]:
    """Where the lines of the bytes begin."""
    return [0, *(it.end() for it in re.finditer(b"\n", text))]


def in_characters(text: bytes, places: Iterable[int]) -> Dict[int, int]:
    """For each place in bytes, the place in characters. The text is read once.

    A place within a character is the place behind it, and one beyond the text is the text's end, since the place of
    an error at the end of a text ends beyond it.
    """
    if text.isascii():
        return {place: min(place, len(text)) for place in places}
    at = count = 0
    found = {}
    for place in sorted(set(places)):
        count += characters(text[at:place])
        at = place
        found[place] = count
    return found
