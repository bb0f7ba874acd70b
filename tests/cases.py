#!/usr/bin/env python3
"""The cases (docs/CASES.md): their texts, written out, and runs of them with zh_cases, which makes one turn at a time, and zhcount.

`tests/cases.py [--programs ZH_CASES ZHCOUNT] [FILE.case ..]` runs these files, or all, several at once, with the proved programs or others.
For each it prints how many cases and turns it has, or what is wrong with it."""
import argparse
import os
import re
import subprocess
import sys
import tempfile
from collections import defaultdict, namedtuple
from concurrent.futures import ProcessPoolExecutor
from contextlib import suppress
from itertools import product, repeat
from pathlib import Path

from places import CASES, PROGRAMS_OF_CASES

# A line of a text; a file in it is one line, `file NAME` and the file's lines.
Line = namedtuple("Line", "number text")
# What a run of a file came to: its fault, or ''; and each line that reported refused memory, with its answer.
Outcome = namedtuple("Outcome", "cases turns fault reports")
# The places of a disk that have names (docs/FORMATS.md, "Places of the disk").
PLACES = {"head": 0, "setup": 4096}
for _slot, _place in ((1, 69632), (2, 594176)):
    PLACES.update({f"slot{_slot}": _place, f"slot{_slot}.gate": _place, f"slot{_slot}.generation": _place + 1,
                   f"slot{_slot}.payload": _place + 9, f"journal{_slot}": _place + 262400})
# The limits of turns, in the order in which the program takes them.
LIMITS = {"csv": ["input"], "serve": ["reads", "input", "output"]}
NO_LIMIT = 2**64 - 1
WRITES = ("file", "write", "append", "replace")
# The files in which the program gives, and is given, a disk and a count.
IMAGE, COUNT = ".image", ".count"


class Fault(Exception):
    """The number of a line, and what is wrong with it."""


def at(number, act, *given):
    """Does something for a line, which is named if it is wrong."""
    try:
        return act(*given)
    except (ValueError, OSError) as fault:
        raise Fault(f"{number}: {fault}") from fault


def lines_of(text):
    """The lines of a text without their comments, its blocks written out."""
    lines, begun, number = [], [], 0
    for number, line in enumerate(map(str.strip, text.removesuffix("\n").split("\n")), 1):
        line = line if line.startswith('"') else line.partition("#")[0].rstrip()
        if line.startswith("end "):
            start = begun.pop() if begun else len(lines)
            lines[start:] = at(number, block, line[4:], *lines[start:])
        elif line:
            begun += [len(lines)] if line == "sweep" or line.startswith(("repeat ", "file ")) else []
            lines.append(Line(number, line))
    if begun:
        raise Fault(f"{number}: a block does not end")
    return lines


def block(kind, head=Line(0, ""), *body):
    """The lines that a block stands for."""
    word, _, rest = head.text.partition(" ")
    if word != kind:
        raise ValueError("a block of another kind ends" if word else "a block ends that did not begin")
    if word == "file":
        return [Line(head.number, "\n".join([head.text, *(it.text for it in body), ""]))]
    return repetition(rest, body) if word == "repeat" else sweep(body)


def repetition(head, body):
    """The lines of a repetition, once for each of its values."""
    name, _, listed = map(str.strip, head.partition("="))
    span = re.fullmatch(r"(\d+) to (\d+)(?: by ([1-9]\d*))?", listed)
    if not listed or " to " in listed and not span:
        raise ValueError("a repetition has a name and values")
    values = map(str, range(int(span[1]), int(span[2]) + 1, int(span[3] or 1))) if span else map(str.strip, listed.split(","))
    return [Line(number, with_value(text, name, value)) for value in values for number, text in body]


def with_value(text, name, value):
    """A text with a value in the place of `{NAME}`, and with 5 more in that of `{NAME+5}`."""
    def put(it):
        return value if not it[1] else str(int(value) + int(it[1])) if value.isdecimal() else it[0]

    return re.sub(rf"\{{{name}([+-]\d+)?\}}", put, text) if f"{{{name}" in text else text


def sweep(body):
    """The lines of a sweep, once for each cell of its table."""
    parts = {"table": [], "answers": [], "turns": []}
    for it in body:
        word = "table" if parts["table"] else it.text.partition(" ")[0]
        parts.get(word, parts["turns"]).append(it)
    if not parts["table"]:
        raise ValueError("a sweep has a table")
    answers, following, (head, *rows) = defaultdict(list), 0, parts["table"]
    for it in parts["answers"]:
        name, _, listed = it.text.removeprefix("answers ").partition(":")
        answers[name] += map(str.strip, listed.split(";"))
    found = [Line(head.number, "mark")]
    for number, row in rows:
        (span, *names), (_, *stops) = row.split(), head.text.split()
        if len(names) != len(stops):
            raise ValueError("a row has a name for each stop")
        first, _, last = span.partition("-")
        if int(first) != following:
            raise ValueError("rows go from 0 on, without a gap")
        following = int(last or first) + 1
        for calls, (stop, name) in product(map(str, range(int(first), following)), zip(stops, names)):
            found += [Line(number, f"back {calls} {stop}"), *in_cell(parts["turns"], calls, stop, answers[name])]
    return found


def in_cell(turns, calls, stop, answers):
    """The turns of a sweep in a cell of its table, with its answers for the question marks."""
    texts = [with_value(with_value(it.text, "calls", calls), "stop", stop) for it in turns]
    more = len(answers) - sum(it.endswith("?") for it in texts)
    if more:
        raise ValueError(f"a name has too {'many' if more > 0 else 'few'} answers")
    left = iter(answers)
    return [Line(it.number, text[:-1] + next(left) if text.endswith("?") else text) for it, text in zip(turns, texts)]


def repeated(lines):
    """The lines of a set-up, its repetitions written out."""
    return [it.text for it in lines_of("\n".join(lines))]


def counted(lines):
    """The number of cases, and of turns."""
    return sum(it.text.startswith("case ") for it in lines), len(lines)


def turn_of(text):
    """A turn, and the answer that is expected."""
    turn, arrow, expected = text.rpartition("->")
    return (turn.rstrip(), expected.lstrip()) if arrow and not text.startswith("file ") else (text, "ok")


def turns(path):
    """(line, files) for each turn of a file of cases, with the files as they are before it, but for those that the program writes."""
    files = {}
    for _, text in lines_of(path.read_text()):
        turn = turn_of(text)[0]
        word, _, rest = turn.partition(" ")
        if word != "file":
            yield text, files
        if word == "remove":
            files.pop(rest, None)
        elif word in WRITES and (word != "replace" or rest.split()[0] in files):
            files.update([written(turn, lambda name: files.get(name, b""))])


def written(turn, read):
    """The name and the bytes of the file that a turn writes; `read` gives those of another."""
    word, _, rest = turn.partition(" ")
    name, _, rest = rest.partition("\n" if word == "file" else " ")
    if word == "file":
        return name, rest.encode()
    if word != "replace":
        return name, (read(name) if word == "append" else b"") + coded(rest.split())
    to, _, change = rest.partition(" ")
    old, arrow, new = (it.strip().replace("\\n", "\n").replace("\\r", "\r").encode() for it in change.partition("=>"))
    if not arrow:
        raise ValueError("a change is OLD => NEW")
    return to, read(name).replace(old, new)


def coded(words):
    """The bytes that groups of hexadecimal digits spell, for example `a5 01` or `ff*300`."""
    groups = [word.partition("*") for word in words]
    return b"".join(bytes.fromhex(digits) * int(times or 1) for digits, _, times in groups)


def place_of(word):
    """A place on the disk, by its name or number."""
    name, _, further = word.partition("+")
    if not name.isdecimal() and name not in PLACES:
        raise ValueError("there is no such place")
    return PLACES[name] + int(further or 0) if name in PLACES else int(word)


def question(text):
    """A question in numbers: how many rows and columns, their totals, and the votes row by row."""
    found = {"rows": [], "columns": [], "votes": []}
    for part in text.replace(", ", "\n").splitlines():
        word, _, rest = part.partition(" ")
        if word not in found:
            raise ValueError("a line gives rows, columns or votes")
        found[word] += map(int, rest.split())
    return len(found["rows"]), len(found["columns"]), *found["rows"], *found["columns"], *found["votes"]


def limits(word, text):
    """The limits of a turn: none but for the one that a text gives, for example `reads 3`."""
    name, _, number = text.partition(" ")
    if name and name not in LIMITS[word]:
        raise ValueError("there is no such limit")
    return [int(number) if it == name else NO_LIMIT for it in LIMITS[word]]


def asked(turn, read):
    """The words with which the program is asked for a turn; `read` gives the bytes of a file."""
    word, _, rest = turn.partition(" ")
    name, _, limit = rest.partition(" ")
    if turn[:1].isdecimal():
        return "send", turn.encode().hex()
    if turn[:1] == turn[-1:] == '"':
        return "send", turn[1:-1].encode().hex()
    if word == "hex":
        return "send", coded(rest.split()).hex()
    if word == "stop" and rest not in ("keep", "old"):
        return word, int(rest, 16)
    if word == "csv":
        return word, name, *limits(word, limit)
    if word == "serve":
        return word, name, *limits(word, limit.replace("writes", "output")), NO_LIMIT if "writes" in limit else 1
    if word in ("question", "decision"):
        return word, *question(read(rest).decode())
    if word == "lot":
        return word, *question(rest)
    return {"save": "image", "load": "disk"}.get(word, word), *rest.split()


class Run:
    """A run of a file of cases, in a folder that has its set-ups."""

    def __init__(self, programs, setups, folder, environment):
        self.setups, self.folder, self.reports = setups, folder, []
        program, self.zhcount = programs
        # The cell of a sweep, whether the rest of a case is left out, and what disk and count held at `hold`.
        self.cell, self.is_over, self.held = "", False, (b"", b"")
        pipes = {"stdin": subprocess.PIPE, "stdout": subprocess.PIPE, "stderr": subprocess.PIPE}
        self.program = subprocess.Popen([program, *setups], bufsize=0, cwd=folder, env=environment, **pipes)

    def ask(self, *words):
        """What the program answers to a turn."""
        answer = b""
        with suppress(BrokenPipeError):
            self.program.stdin.write(f"{' '.join(map(str, words)).strip()}\n".encode())
        while not answer.endswith(b"\n"):
            part = self.program.stdout.read(1 << 16)
            if not part:
                said = self.program.stderr.read().decode(errors="replace").strip()
                raise ValueError(said or f"the program ended with status {self.program.wait()}")
            answer += part
        return answer[:-1].decode()

    def make(self, number, text):
        """Makes the turn of a line, and compares its answer with the expected one."""
        turn, expected = turn_of(text)
        if turn.startswith("refuse "):
            self.refuse(number, turn[7:], *expected.split(" or ", 1))
        else:
            self.see(turn, expected, self.answer(turn))

    def see(self, turn, expected, found):
        """Compares an answer with the expected one, of which two dots at the end match anything."""
        if not (found.startswith(expected[:-2].rstrip()) if expected.endswith("..") else found == expected):
            raise ValueError(f"'{turn}'{self.cell}: expected '{expected}', found '{found}'")

    def read(self, name):
        return (self.folder / name).read_bytes()

    def answer(self, turn, *refuse):
        """The answer to a turn. `refuse`: memory can be refused to it."""
        word, _, rest = turn.partition(" ")
        if word in WRITES:
            name, content = written(turn, self.read)
            (self.folder / name).write_bytes(content)
        elif word == "remove":
            if not (self.folder / rest).exists():
                return "missing"
            (self.folder / rest).unlink()
        elif word == "same":
            one, other = map(self.read, rest.split())
            return "ok" if one == other else "differs"
        elif word == "hold":
            self.held = self.holding()
        elif word == "held":
            return "ok" if self.is_as_held() else "differs"
        elif word in ("holds", "poke", "damage"):
            return self.on_image(word, rest)
        elif word == "case":
            self.cell, self.is_over = "", False
            self.ask("setup", 0)
            return self.ask("zeros")
        elif word == "setup":
            return self.ask(word, self.setups.index(rest))
        elif word == "back":
            self.cell = f" at {rest}"
            return self.ask(word)
        elif word == "zhcount":
            return self.run(rest)
        else:
            found = self.ask(*refuse, *asked(turn, self.read))
            return found.rpartition("; ")[0] if word == "csv" and " " not in rest and found.endswith(" left") else found
        return "ok"

    def run(self, given):
        """The status of a run of zhcount, the lines of its output, and those of its standard error."""
        arguments, _, name = given.partition("<")
        text = self.read(name.strip()) if name else b""
        ran = subprocess.run([self.zhcount, *arguments.split()], input=text, cwd=self.folder, capture_output=True)
        written = [(mark, out.decode().replace("\r\n", "\n")) for mark, out in (("; ", ran.stdout), (" | ", ran.stderr)) if out]
        return "".join([str(ran.returncode), *(mark + it for mark, text in written for it in text.removesuffix("\n").split("\n"))])

    def holding(self):
        """The bytes of the disk, and those of the count of the office that is open, or none."""
        self.ask("image", IMAGE)
        self.ask("count", COUNT)
        return self.read(IMAGE), self.read(COUNT)

    def is_as_held(self):
        image, count = self.holding()
        return image == self.held[0] and count in (b"", self.held[1])

    def on_image(self, word, rest):
        """The answer to a turn on the bytes of the disk from a place on."""
        place, *words = rest.split()
        start, content = place_of(place), coded(words)
        self.ask("image", IMAGE)
        image = self.read(IMAGE)
        changed = image[:start] + content + image[start + len(content):]
        if len(changed) > len(image):
            raise ValueError("the disk has no such place")
        if word == "holds":
            return "ok" if changed == image else image[start:][:len(content)].hex()
        (self.folder / IMAGE).write_bytes(changed)
        return self.ask("disk" if word == "poke" else word, IMAGE)

    def refuse(self, number, turn, expected, other=None):
        """Makes a turn to which memory can be refused. Where that is the answer nothing has changed, or no more than a device that failed
        can leave; and the turn is made again."""
        before = int(self.ask("accepted"))
        found = self.answer(turn, "refuse")
        is_device = found.endswith("device")
        if not is_device and not found.endswith("memory"):
            return self.see(turn, expected, found)
        if not (self.is_between(turn, before) if is_device and turn != "open" else self.is_as_held()):
            raise ValueError("something changed though memory was refused")
        self.reports.append((number, found))
        self.is_over = is_device and other == "end"
        again = expected if self.is_over else self.answer(turn)
        return None if is_device and again == other else self.see(turn, expected, again)

    def is_between(self, turn, before):
        """Opens the office on a disk that failed during a turn. Whether it has this many commands or one more; if the turn formats, whether
        the disk is blank or it has at most these."""
        at_once, opened, accepted = int(self.ask("accepted")), self.ask("open"), int(self.ask("accepted"))
        if turn == "format":
            return opened == "blank" or opened == "ok" and accepted <= before
        return opened == "ok" and at_once == before <= accepted <= before + 1


def run(path, programs, folder, environment=None):
    """Runs a file of cases in a folder, up to its first fault, with zh_cases and zhcount. Its set-ups are next to it."""
    lines, fault, reports, name = [], "", [], path.name
    folder.mkdir(exist_ok=True)
    try:
        lines = lines_of(path.read_text())
        setups = [*dict.fromkeys(it.text[6:] for it in lines if it.text.startswith("setup "))]
        for name in {*setups} - {"rehearsal"}:
            (folder / name).write_text("\n".join(repeated((path.parent / name).read_text().split("\n"))))
        name, it = path.name, Run(programs, setups, folder, environment)
        reports = it.reports
        with it.program:
            for number, text in lines:
                if not it.is_over or text.startswith("case "):
                    at(number, it.make, number, text)
    except (Fault, OSError) as said:
        fault = f"{name}:{said}"
    return Outcome(*counted(lines), fault, reports)


def main():
    parser = argparse.ArgumentParser(description=__doc__, formatter_class=argparse.RawDescriptionHelpFormatter)
    parser.add_argument("--programs", type=os.path.abspath, nargs=2, default=PROGRAMS_OF_CASES)
    parser.add_argument("names", metavar="FILE.case", nargs="*")
    given = parser.parse_args()
    paths, right = [CASES / it for it in given.names] or sorted(CASES.glob("*.case")), []
    with tempfile.TemporaryDirectory() as room, ProcessPoolExecutor(len(os.sched_getaffinity(0))) as pool:
        for path, it in zip(paths, pool.map(run, paths, repeat(given.programs), (Path(room, it.stem) for it in paths))):
            right += [] if it.fault else [it]
            print(it.fault or f"{path.name}: {it.cases} cases, {it.turns} turns", file=sys.stderr if it.fault else sys.stdout, flush=True)
    print(f"all: {sum(it.cases for it in right)} cases, {sum(it.turns for it in right)} turns")
    return len(right) < len(paths)


if __name__ == "__main__":
    sys.exit(main())
