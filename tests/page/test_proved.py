"""The two checks of the page against `zhcount check`: its own says right or wrong as that does, and the proved one answers byte
for byte what that does."""
import base64
import concurrent.futures
import functools
import hashlib
import os
import pathlib
import random
import re
import subprocess
import tempfile

import pytest

import firefox
import model
import sheets
from case import EXAMPLE, LARGEST, OTHERS, ROWS, SETUP, WRONG, Case
from cases import turns
from places import CASES, PROGRAM
from test_colours import Chosen
from test_so_far import FEW, WIDTHS

pytestmark = [pytest.mark.long, pytest.mark.usefixtures("program")]

CHECKED = ("checked_lines.case", "checked_numbers.case", "program_checks.case")
# One in so many cases is asked in a worker of its own too, as the page asks.
WORKER = 10
# So many changes of each larger sheet, from this seed. Of the smallest all are taken.
SAMPLE, SEED = 20, 2027


@functools.lru_cache(None)
def program_answer(setup, sheet, held=None):
    """What the program answers on these bytes, as the page's module would: a status and bytes. The module reads texts and not files, so
    the second line of its report has neither the path, which comes first, nor the limits, which come last."""
    with tempfile.TemporaryDirectory() as room:
        given = {name: content for name, content in (("setup", setup), ("sheet", sheet), ("held", held)) if content is not None}
        for name, content in given.items():
            pathlib.Path(room, name).write_bytes(content)
        ran = subprocess.run([PROGRAM, "check", *(word for name in given for word in (f"--{name}", name))], cwd=room,
                             stdin=subprocess.DEVNULL, stdout=subprocess.PIPE, stderr=subprocess.PIPE)
    if ran.stdout:
        return ran.returncode, ran.stdout
    name, _, line = ran.stderr.replace(b"zhcount: ", b"", 1).partition(b"\n")
    place = line.rstrip(b"\n").partition(b": ")[2]
    if name == b"setup range":
        place = place.partition(b": ")[0]
    status = {b"setup": 2, b"held": 3}.get(name.partition(b" ")[0], ran.stderr)
    return status, b"".join(it + b"\n" for it in (name, place) if it)


def program_answers(cases):
    """What the program answers on each of these; as many are asked at once as there are processors."""
    with concurrent.futures.ThreadPoolExecutor(len(os.sched_getaffinity(0))) as pool:
        return list(pool.map(lambda case: program_answer(*case), cases))


def utf8(*texts):
    return tuple(None if text is None else text.encode() for text in texts)


def changes(sheet):
    """A sheet with each line left out, twice there, or after the next one, each number changed, a group in or out, and
    other ends."""
    lines = sheet.splitlines(keepends=True)
    for at, line in enumerate(lines):
        before, following, after = "".join(lines[:at]), "".join(lines[at + 1:at + 2]), "".join(lines[at + 2:])
        yield from (before + put + after for put in (following, line + line + following, following + line))
        puts = [(it, put) for it in re.finditer(r"\d+", line) for put in (int(it[0]) - 1, int(it[0]) + 1, 0, f"0{it[0]}", 2**64, "-")]
        puts += [(it, new) for old, new in ((" yes ", " no "), (" no ", " yes "), (" - ", " 0 "), (" - ", " 1.000000 "))
                 for it in re.finditer(old, line)]
        yield from (f"{before}{line[:it.start()]}{put}{line[it.end():]}{following}{after}" for it, put in puts)
    yield from (sheet[:-1], sheet + "\n", sheet + sheet, sheet.replace("\n", "\r\n"), "\ufeff" + sheet, "")


def checks(name):
    """The set-up, the sheet, and the rows held or None, of each `zhcount check` of a file of cases whose files are there
    (docs/CASES.md, "Turns on files")."""
    for line, files in turns(CASES / name):
        found = re.match(r"zhcount check ((?:--\w+ \S+ *)+)(?:->|$)", line)
        named = dict(re.findall(r"--(\w+) (\S+)", found[1])) if found else {}
        if {"setup", "sheet"} <= named.keys() and all(file in files for file in named.values()):
            yield files[named["setup"]], files[named["sheet"]], files.get(named.get("held"))


class Proved:
    """The proved check in a browser."""

    def answers(self, cases, in_worker):
        """What it answers on each of these, as the page asks it: in a worker of its own; or the same call in the page, with the module
        compiled once, which is faster."""
        coded = [[None if text is None else base64.b64encode(text).decode() for text in case] for case in cases]
        found = self.driver.execute_async_script("""
            const [cases, inWorker, done] = arguments;
            const bytes = (text) => (text === null ? null : Uint8Array.from(atob(text), (c) => c.charCodeAt(0)));
            const coded = (text) => btoa(Array.from(text, (c) => String.fromCharCode(c)).join(''));
            (async () => {
              const answers = [];
              const module = inWorker ? null : await WebAssembly.compile(moduleBytes());
              const ask = inWorker ? asked : (texts) => provedCheck(module, texts);
              for (const [setup, sheet, held] of cases) {
                const { status, text } = await ask({ setup: bytes(setup), sheet: bytes(sheet), held: bytes(held) });
                answers.push([status, coded(text)]);
              }
              return answers;
            })().then(done, (fault) => done(String(fault)));
        """, coded, in_worker)
        self.assertIsInstance(found, list)
        return [(status, base64.b64decode(text)) for status, text in found]

    def same_answers(self, cases):
        """The page answers each of these as the program does, byte for byte; and some of them in a worker."""
        self.page.open()
        for some, in_worker in ((cases, False), (cases[::WORKER], True)):
            found = self.answers(some, in_worker)
            self.assertEqual(len(found), len(some))
            for case, one, wanted in zip(some, found, program_answers(some)):
                self.assertEqual(one, wanted, case[1][:400])

    def test_each_check_of_the_cases(self):
        for name, least in zip(CHECKED, (80, 80, 200)):
            cases = list(dict.fromkeys(checks(name)))
            self.assertGreaterEqual(len(cases), least)
            self.same_answers(cases)

    def test_right_and_wrong(self):
        for sheet, state, heading in ((EXAMPLE, "right", "✓ Right"), (WRONG, "wrong", "✗ Wrong: 1 seat")):
            page = self.page.sheet(sheet, *OTHERS)
            self.bar_is(state, heading)
            self.assertTrue(page.text("#proved p").startswith(f"It says that the sheet is {state}. "), page.text("#proved p"))
            shown = page.one("#proved pre").get_property("textContent").encode()
            self.assertEqual((int(state == "wrong"), shown), program_answer(*utf8(SETUP, sheet, ROWS)))


class Chromium(Proved, Case):
    def same(self, *found):
        """Of sheets with one set-up, and the rows held or None, each: the proved check answers as the program does, and the page's own says
        right or wrong as that does."""
        cases = [(text, setup, held) for texts, setup, held in found for text in texts]
        coded = [utf8(setup, text, held) for text, setup, held in cases]
        self.same_answers(coded)
        for (text, *_), (status, said), state in zip(cases, program_answers(coded), self.page.states(*cases)):
            self.assertTrue(status == 0 or status == 1 and said.endswith(b"sheet wrong\n"), said)
            self.assertEqual(state, "wrong" if status else "right", text[:400])

    def test_each_sheet_of_the_repository(self):
        """And some with a forged quorum, or beside other rows."""
        found = [*sheets.all_sheets()]
        self.assertGreaterEqual(len(found), 28)
        election = model.made_up(3, 6, 5, 60)
        rows = ROWS, ROWS.replace("525", "526"), ROWS.replace("3,3,1,50", "3,3,2,withdrawn"), ROWS.replace("1,1,1,525\n", "")
        self.same(*(([sheet], setup, given) for sheet, setup, held in found for given in (None, held)),
                  ([election.sheet(), election.sheet(part=[True] * 3 + [False, True])], election.setup(), election.held()),
                  *(([EXAMPLE], SETUP, held) for held in rows))

    def test_each_change_of_a_sheet(self):
        """Of the example each, and of others some."""
        chance = random.Random(SEED)
        others = [model.Election(10, [1000], [[600, 370, 30]]).files(), *sheets.all_sheets()]
        self.same((list(changes(EXAMPLE)), SETUP, None),
                  *((chance.sample(list(changes(sheet)), SAMPLE), setup, held) for sheet, setup, held in others))

    def test_what_it_refuses(self):
        """Set-ups of the cases, rows, and texts that are too long."""
        setups = dict.fromkeys(files[found[1]] for line, files in turns(CASES / "program_setups.case")
                               if (found := re.search(r"--setup (\S+)", line)) and found[1] in files)
        self.assertGreaterEqual(len(setups), 30)
        rows = [ROWS.replace(old, new) for old, new in (
            ("1,3,1,175", "1,2,1,175"), ("1,2,1,300", "1,4,1,300"), ("3,3,", "9,3,"), ("525", "x"), ("525", "1000000001"),
            ("525", "4294967296"), ("\n", "\r\n"))]
        self.same_answers([*((setup, EXAMPLE.encode(), None) for setup in setups), *(utf8(SETUP, EXAMPLE, held) for held in [*rows, ""])])
        sheet, *others = LARGEST.files()
        self.same_answers([utf8(*it) for it in (
            (others[0], sheet, others[1]), (SETUP, "x" * 300_000, None), (SETUP, EXAMPLE * 700, None), ("#" * 1_048_577, EXAMPLE, None),
            ("[" * 500_000, EXAMPLE, None), (SETUP, "", ""), ("", "", None), (SETUP, "1 sheet " + "9" * 270_000, ROWS))])

    def test_the_verdict_is_saved(self):
        sheet = EXAMPLE.encode().replace(b"Mitte", b"Mitt\xe9")
        page = self.page.sheet(sheet, SETUP)
        page.run("""
            const first = URL.createObjectURL;
            URL.createObjectURL = (blob) => {
              blob.arrayBuffer().then((it) => { window.saved = Array.from(new Uint8Array(it)); });
              return first(blob);
            };
        """)
        page.click("#save")
        page.wait("return window.saved !== undefined")
        self.assertEqual(bytes(page.run("return window.saved")), program_answer(SETUP.encode(), sheet)[1])


class Firefox(Proved, Chosen, Case):
    """The proved check, what is drawn, and a sum, whose constants the browser computes."""
    starts = staticmethod(lambda language: firefox.started())

    def test_a_sum(self):
        found = self.page.run("return sha256(new TextEncoder().encode(arguments[0]))", EXAMPLE)
        self.assertEqual(found, hashlib.sha256(EXAMPLE.encode()).hexdigest())

    def test_how_far_the_count_is(self):
        page = self.page.choose(("setup.toml", SETUP), ("held.csv", FEW))
        self.assertEqual((page.text("#verdict"), page.text("#votes-so-far tbody tr")),
                         ("i 4 of 9 returns are in", "1 A 765 61.69% ✓ reached in Nord, Mitte"))
        for is_now, should in zip(page.run(WIDTHS, "#held-so-far"), [1, 1 / 3, 0]):
            self.assertAlmostEqual(is_now, should, delta=0.03)
