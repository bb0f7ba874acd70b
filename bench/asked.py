"""The search, the decision and the lot in C, asked from here; and whether they answer the worked elections and the cases as these say."""
import ctypes
import os
import re
import subprocess
import tempfile
import time
from collections import namedtuple
from functools import lru_cache
from pathlib import Path

BENCH = Path(__file__).resolve().parent
LINES = 32
Numbers, Divisors, Cells = ctypes.c_uint32 * LINES, ctypes.c_uint64 * LINES, ctypes.c_uint32 * LINES**2
FUNCTIONS = {"search": "search", "lot": "search", "question": "find", "decision": "decide"}
# What is said, how many half-steps the search made, whether seats of a question are by the decision, and the processor's seconds.
Answer = namedtuple("Answer", "said half_steps is_decided worked")


class Question(ctypes.Structure):
    _fields_ = [("lines", ctypes.c_int * 2), ("votes", ctypes.c_uint64 * LINES**2), ("totals", Numbers * 2)]


class Outcome(ctypes.Structure):
    _fields_ = [("answer", ctypes.c_int), ("row", ctypes.c_int), ("column", ctypes.c_int), ("half_steps", ctypes.c_int),
                ("divisors", Divisors * 2), ("seats", Cells), ("others", Cells), ("too_few", Numbers)]


def compiled(folder, name, *flags):
    """The program or library of a file of bench/, which is compiled into this folder. Where its loops begin would else be chance, which
    changes its time by a fifth."""
    words = [os.environ.get("CC") or "cc", "-O2", "-falign-loops=32", "-std=gnu11", *flags, BENCH / f"{name}.c", "-o", folder / name]
    subprocess.run(words, check=True)
    return folder / name


@lru_cache(maxsize=None)
def library():
    with tempfile.TemporaryDirectory() as folder:
        return ctypes.CDLL(str(compiled(Path(folder), "decision", "-shared", "-fPIC")))


def listed(word, cells, columns):
    rows = [cells[place:place + columns] for place in range(0, len(cells), columns)]
    return "; ".join([word, *(" ".join(map(str, row)) for row in rows)])


def worded(ask, rows, columns, o):
    """An outcome in the words of the cases. That of a search also has the number of its half-steps."""
    cells = rows * columns
    seats, others = o.seats[:cells], o.others[:cells]
    if ask == "lot":
        return f"{listed('least', seats, columns)}; {listed('most', others, columns)}"
    of_rows, of_columns = (" ".join(map(str, of_side[:n])) for of_side, n in zip(o.divisors, (rows, columns)))
    other = next((k for k in range(cells) if seats[k] != others[k]), 0)
    said = [  # by `enum answer`
        f"{listed('seats', seats, columns)}; rows {of_rows}; columns {of_columns}",
        f"no votes {o.row + 1}",
        f"tied {o.row + 1} {o.column + 1}",
        "exhausted",
        " ".join(["impossible", *(str(d + 1) for d in range(rows) if o.too_few[d])]),
        f"nearly tied {other // columns + 1} {other % columns + 1}",
        listed("beyond", seats, columns),
    ][o.answer]
    return f"{said}; half-steps {o.half_steps}" if ask == "search" else said


def answer(ask, of_rows, of_columns, votes):
    """What C answers to such a turn of the cases, with these totals of rows and of columns, and these votes, row by row."""
    rows, columns = len(of_rows), len(of_columns)
    question, outcome = Question((rows, columns), tuple(votes), (tuple(of_rows), tuple(of_columns))), Outcome()
    function, start = library()[FUNCTIONS[ask]], time.process_time()
    is_decided = function(ctypes.byref(question), ctypes.byref(outcome))
    worked = time.process_time() - start
    return Answer(worded(ask, rows, columns, outcome), outcome.half_steps, is_decided, worked)


def wrong(path):
    """The turns of a file that C does not answer as it says."""
    text = path.read_text()
    files = dict(re.findall(r"^file (\S+)\n((?:  .*\n)*)end file$", text, re.M))
    turns = re.findall(r"^((search|question|decision|lot) (.*) -> (.*))$", text, re.M)
    yield from [] if turns else [f"{path.name} asks nothing"]
    for turn, ask, asked, wanted in turns:
        lines = files[asked].splitlines() if asked in files else asked.split(", ")
        of_rows, of_columns, *votes = ([*map(int, line.split()[1:])] for line in lines)
        found = answer(ask, of_rows, of_columns, sum(votes, [])).said
        if found != wanted:
            yield f"{path.name}: {turn}: {found}"
