#!/usr/bin/env python3
"""ties.py COUNT: small questions at which the search is tied, with the fewest and the most seats of each cell over all matrices.

The matrices that may be drawn are those that have the totals and the greatest product of votes / (2 j - 1) over their seats j =
1, 2, .. of each cell: so seats follow from divisors, halves rounded either way, and no search is needed to find them. They are
found here by writing down every matrix. The C program of bench/ says which questions come to a tie of the search.
The lines that this prints for 2000 are in crates/zh_cases/data/ties.case.
"""
import itertools
import math
import random
import sys
from fractions import Fraction
from pathlib import Path

sys.path.insert(0, str(Path(__file__).resolve().parents[1] / "bench"))
from asked import answer, listed


def drawn(row_totals, column_totals, votes):
    """All matrices that may be drawn, each as a list of its cells."""
    rows = [*itertools.product(*(range(total + 1) for total in column_totals))]
    found = {}
    for matrix in itertools.product(*([row for row in rows if sum(row) == total] for total in row_totals)):
        if [*map(sum, zip(*matrix))] == column_totals:
            cells = sum(matrix, ())
            worths = (Fraction(of_cell, 2 * seat - 1) for of_cell, number in zip(votes, cells) for seat in range(1, number + 1))
            found.setdefault(math.prod(worths), []).append(cells)
    return found[max(found)]


def questions(numbers):
    """Questions without end: totals of rows and of columns, and votes, each line with some."""
    while True:
        rows, columns = numbers.randint(1, 4), numbers.randint(1, 4)
        row_totals = [numbers.randint(1, 4) for _ in range(rows)]
        total = sum(row_totals)
        if total < columns or rows * columns > 9:
            continue
        cuts = [0, *sorted(numbers.sample(range(1, total), columns - 1)), total]
        column_totals = [after - before for before, after in zip(cuts, cuts[1:])]
        pool = numbers.choice([[1], [1, 1, 2], [0, 1, 1], [1, 2, 3], [1, 3, 5, 15], [2, 6, 10]])
        votes = [[numbers.choice(pool) for _ in range(columns)] for _ in range(rows)]
        if all(map(any, [*votes, *zip(*votes)])):
            yield row_totals, column_totals, votes


def main(count):
    written = set()
    for row_totals, column_totals, votes in questions(random.Random(1)):
        named = (["rows", *row_totals], ["columns", *column_totals], *(["votes", *row] for row in votes))
        lines = tuple(" ".join(map(str, it)) for it in named)
        if lines not in written and answer("search", row_totals, column_totals, sum(votes, [])).said.startswith("tied"):
            cells = [*zip(*drawn(row_totals, column_totals, sum(votes, [])))]
            least, most = (listed(word, [of(it) for it in cells], len(column_totals)) for word, of in (("least", min), ("most", max)))
            print(f"lot {', '.join(lines)} -> {least}; {most}")
            written.add(lines)
            if len(written) == count:
                return


main(int(sys.argv[1]))
