"""Each request for memory is refused in turn. This takes a library that counts requests: tests/python builds it."""
import ctypes
import os
import unittest
from typing import Any, Callable

import dovelectern
from dovelectern import ast
from texts import all_texts

OTHER = "key = { foo } { $var }\n    .attr = { -term }\nkey = Key\n"
LIBRARY = ctypes.CDLL(os.environ["DOVELECTERN_LIBRARY"])


def calls_over(text: str, tree: ast.Resource) -> "list[Callable[[], Any]]":
    return [lambda: dovelectern.parse(text), lambda: dovelectern.check(text), lambda: dovelectern.serialize(tree),
            lambda: dovelectern.format(text, drop_junk=True), lambda: dovelectern.lint([text, OTHER]),
            lambda: dovelectern.compare(OTHER, text), lambda: dovelectern.set_value(OTHER + text, "key", "{ $x }"),
            lambda: dovelectern.replace(OTHER + text, "key", "a = b"), lambda: dovelectern.remove(OTHER + text, "key"),
            lambda: dovelectern.insert(OTHER + text, "a = b", before="key"), lambda: dovelectern.is_canonical(tree)]


def answer_of(call: "Callable[[], Any]") -> Any:
    """What the call returns, or why it refuses the tree; a request for memory that was refused is no answer."""
    try:
        return call()
    except dovelectern.ReadsOtherwise as error:
        return str(error)


@unittest.skipUnless(hasattr(LIBRARY, "refuse_request"), "the library refuses no request")
class Memory(unittest.TestCase):
    def test_refused(self) -> None:
        refused = 0
        for text, _ in all_texts()[::128]:
            for call in calls_over(text, dovelectern.parse(text)):
                wanted = answer_of(call)
                for number in range(10_000):
                    LIBRARY.refuse_request(number)
                    try:
                        # a request may be one that the library does without
                        self.assertEqual(answer_of(call), wanted)
                    except MemoryError:
                        refused += 1
                    left = LIBRARY.refuse_request(-1)
                    self.assertEqual(LIBRARY.live_blocks(), 0)
                    if left >= 0:
                        break
                self.assertGreaterEqual(left, 0)
        self.assertGreater(refused, 200)


if __name__ == "__main__":
    unittest.main()
