"""The rows that tools/bindings.py makes, endings, and texts at the limit."""

import glob
import os
import unittest

from zellunkay import audit, explore, now, steps

ROWS = os.environ.get("ZELLUNKAY_ROWS")


def read(path):
    with open(path, "rb") as file:
        return file.read()


def output_of(name, text):
    """What is told of a row, by its file's name: `audit-..`, `steps-..`, `explore-..`, or `now-ENTRY-..`."""
    kind, rest = name.split("-", 1)
    if kind == "now":
        return now(text, int(rest.split("-")[0])).output
    return {"audit": audit, "steps": steps, "explore": explore}[kind](text).output


class Texts(unittest.TestCase):
    @unittest.skipUnless(ROWS, "ZELLUNKAY_ROWS names no folder")
    def test_rows(self):
        paths = sorted(glob.glob(os.path.join(ROWS, "*.in")))
        self.assertGreater(len(paths), 70)
        for path in paths:
            with self.subTest(path):
                # A row of ends does not say how many states there are, which the answer's first line begins with.
                told = output_of(os.path.basename(path), read(path))
                self.assertEqual(told[told.index(b"interleavings"):] if "explore" in path else told, read(path[:-3] + ".out"))

    def test_endings(self):
        self.assertEqual(steps(b"pool 1 1 unbounded keep 0 abort\n").status, 0)
        self.assertEqual(steps(b""), (b"refused 23 BadLine 1\n", 23))
        self.assertEqual(audit(b"tprecord 2\npool 1 1 unbounded keep 0 abort\n1 open w0 live\nend 1\n"), (b"flaw 1\n", 32))

    def test_moments(self):
        record = b"tprecord 2\npool 1 1 unbounded keep 0 abort\nend 0\n"
        self.assertEqual(now(record), now(record, 0))
        self.assertEqual(now(record, 1), (b"refused 8 NotThere\n", 8))
        callers = b"pool 0 1 unbounded keep 0 abort\ncaller a: execute 1\ncaller shutdown\n"
        self.assertEqual(explore(callers, 3), (b"", 37))
        self.assertEqual(explore(callers).status, 0)

    def test_longest(self):
        self.assertEqual(steps(b"\n" * 1_048_577), (b"refused 25 ReadFailed\n", 25))
        self.assertEqual(audit(bytearray(1_048_577)), (b"refused 25 ReadFailed\n", 25))
        self.assertEqual(steps(b"\n" * 1_048_576), (b"refused 23 BadLine 1048577\n", 23))

    def test_zero_bytes_are_text(self):
        self.assertEqual(steps(b"\0\n"), (b"refused 23 BadLine 1\n", 23))


if __name__ == "__main__":
    unittest.main()
