"""The rows of a case's own program, by unittest. A row is one look with a name: it passes, or says what is due and what was found.

    test [-k WORD] ..     looks at the rows whose names have one of the WORDS, and prints each; without them at all rows

The last line is 'NAME: N passed, M failed', as cases/run reads it, and the status is 1 where one failed.
"""
from __future__ import annotations

import argparse
import tempfile
import traceback
import unittest
from concurrent.futures import ThreadPoolExecutor
from typing import Callable, Iterable, Iterator, List, Tuple

MOST_LINES, WIDTH = 40, 200  # of what is said of a row


class Row(unittest.TestCase):
    """A row: `look` is given the row, by whose methods it asserts, and these arguments."""

    maxDiff = None
    longMessage = True

    def __init__(self, name: str, look: Callable[..., object], *arguments: object):
        super().__init__("look")
        self.name, self.looks, self.arguments = name, look, arguments

    def look(self) -> None:
        self.looks(self, *self.arguments)

    def failure(self) -> List[str]:
        """What is said of it, line by line, or nothing."""
        result = Result()
        self.run(result)
        return result.said


class Result(unittest.TestResult):
    """What is said of a row."""

    def __init__(self) -> None:
        super().__init__()
        self.said: List[str] = []

    def addFailure(self, test: unittest.TestCase, err: object) -> None:
        self.said += (str(err[1]) if isinstance(err, tuple) else str(err)).splitlines() or ["it doesn't hold"]

    def addError(self, test: unittest.TestCase, err: object) -> None:
        self.said += "".join(traceback.format_exception(*err) if isinstance(err, tuple) else [str(err)]).splitlines()


def same(name: str, due: object, found: object) -> Row:
    """That what was found is what is due."""
    return Row(name, lambda row: row.assertEqual(due, found))


def holds(name: str, is_so: object, found: object = "") -> Row:
    """That something is so, and else what was found."""
    return Row(name, lambda row: row.assertTrue(is_so, found))


def passes(name: str, look: Callable[..., str], *arguments: object) -> Row:
    """That a look with these arguments says nothing."""
    def silent(row: Row) -> None:
        if said := look(*arguments):
            row.fail(said)
    return Row(name, silent)


class Kept:
    """Rows that are kept as a test goes on, where its looks stand within other work."""

    def __init__(self) -> None:
        self.rows: List[Row] = []

    def found(self, name: str, found: object, due: object) -> None:
        """A row: what was found, and what is due."""
        self.rows.append(same(name, due, found))

    def holds(self, name: str, is_so: object, found: object = "") -> None:
        """A row: whether something is so, and else what was found."""
        self.rows.append(holds(name, is_so, found))

    def of(self, tests: Iterable[Callable[[], object]]) -> Iterator[Row]:
        """The rows that these keep, test by test."""
        for test in tests:
            test()
            rows, self.rows = self.rows, []
            yield from rows


def chosen_rows(rows: Iterable[Row], words: List[str]) -> Iterator[Row]:
    """Those whose names have one of these words, or all without words."""
    return (row for row in rows if not words or any(word in row.name for word in words))


def looked_at(rows: Iterable[Row], jobs: int) -> Iterator[Tuple[Row, List[str]]]:
    """Each row, and what is said of it, in their order."""
    if jobs == 1:
        yield from ((row, row.failure()) for row in rows)
        return
    with ThreadPoolExecutor(jobs) as pool:
        kept = list(rows)
        yield from zip(kept, pool.map(Row.failure, kept))


def main(case: str, rows: Callable[[str], Iterable[Row]], jobs: int = 1) -> int:
    """Looks at the rows of a case, so many at a time; the status. `rows` makes them, with a folder for what they write."""
    reader = argparse.ArgumentParser(description=f"the rows of the case {case}")
    reader.add_argument("-k", action="append", default=[], metavar="WORD", dest="words", help="looks at the rows whose names have the WORD")
    words = reader.parse_args().words
    passed = failed = 0
    with tempfile.TemporaryDirectory(prefix=f"aegis-{case}-") as folder:
        for row, said in looked_at(chosen_rows(rows(folder), words), jobs):
            passed, failed = passed + (not said), failed + bool(said)
            if said:
                print(f"FAILED {case}: {row.name}", *(f"    {line[:WIDTH]}" for line in said[:MOST_LINES]), sep="\n", flush=True)
            elif words:
                print(f"ok {row.name}")
    print(f"{case}: {passed} passed, {failed} failed")
    return 1 if failed else 0
