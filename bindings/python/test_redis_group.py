"""Tests of what redis_group.py says of screens: python3 -m unittest. It is skipped where the module `redis` is not there."""

from __future__ import annotations

import unittest

try:
    import redis_group
except ImportError as fault:
    raise unittest.SkipTest(f"{fault}") from fault


class Screens(unittest.TestCase):
    """What redis_group.py finds wrong."""

    def screens(self) -> list[list[str]]:
        lines = [f"{me}.{number} line" for number in range(1, redis_group.LINES_OF_EACH + 1) for me in range(3)]
        lines[5] = "2.2 re 1.2 line"
        return [list(lines) for _ in range(3)]

    def test_that_are_right(self) -> None:
        self.assertEqual(list(redis_group.faults(self.screens(), self.screens()[1][:7])), [])

    def test_that_are_wrong(self) -> None:
        lacks, twice, other, orphan, past = (self.screens() for _ in range(5))
        del lacks[2][-1]
        twice[0].append(twice[0][3])
        other[1][3] += "!"
        orphan[2][4], orphan[2][5] = orphan[2][5], orphan[2][4]
        for screens, said in ((lacks, "screen 2 has not"), (twice, "screen 0 has not"), (other, "screen 1 has not")):
            self.assertIn(said, next(redis_group.faults(screens, [])))
        self.assertEqual(list(redis_group.faults(orphan, [])), ["screen 2 has an orphan: 2.2 re 1.2 line"])
        self.assertEqual(list(redis_group.faults(past, ["1.1 line"])), ["the member that came back has another past"])


if __name__ == "__main__":
    unittest.main()
