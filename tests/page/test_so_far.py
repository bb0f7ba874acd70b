"""How far the count is, before there are seats: what the page shows then, and that its sums are those of `zhcount votes`."""
import csv
import itertools
import pathlib
import random
import re
import subprocess
import tempfile

import pytest

import model
import sheets
from case import EXAMPLE, ROWS, SETUP, Case, changed
from places import PROGRAM, TOP

FEW = "".join(ROWS.splitlines(keepends=True)[:5])
NO_SEATS = "zhcount: refused novotes 3\n"
NIGHTS = 6
OPEN = "The missing returns can still change all of it."
# How much of their whole the bars of a table are.
WIDTHS = """
    const width = (one) => one.getBoundingClientRect().width;
    return [...document.querySelectorAll(`${arguments[0]} tbody .gauge`)].map((it) => width(it.querySelector('.part')) / width(it));
"""
# The first lines of the tables of a published folder.
HEADS = re.findall(r"^ *((?:constituency|group),[a-z0-9_,]+)$", (TOP / "docs/FORMATS.md").read_text(), re.M)


def nights():
    """The set-up and the rows of counts that are not at their end, of elections of the repository: some returns are missing, and some lists
    are withdrawn. The first count has no return yet."""
    chance = random.Random(2006)
    found = [*dict.fromkeys((setup, held) for _, setup, held in sheets.all_sheets())]
    with_quorum = [it for it in found if "canton_quorum" in it[0]]
    for at in range(NIGHTS):
        setup, held = chance.choice(with_quorum if at % 2 else found)
        rows = [(place, chance.choice([votes] * 6 + ["withdrawn"])) for place, votes in re.findall(r"^(\d+,\d+),\d+,(\d+)$", held, re.M)]
        yield setup, [f"{place},1,{votes}" for place, votes in rows if at > 0 and chance.random() < 0.8]


def counted(setup, rows):
    """The votes so far of lists and of groups, by the program."""
    with tempfile.TemporaryDirectory() as room:
        def zhcount(task, *arguments, lines=""):
            return subprocess.run([PROGRAM, task, "--setup", "setup", "--disk", "disk", *arguments], cwd=room, input=lines,
                                  stdout=subprocess.PIPE, stderr=subprocess.DEVNULL, text=True, check=True).stdout
        pathlib.Path(room, "setup").write_text(setup)
        zhcount("format")
        lines = [f"1 return {row}\n".replace(",", " ") for row in rows]
        answers = zhcount("run", lines="".join(re.sub("return (.*) withdrawn", r"withdraw \1", line) for line in lines))
        assert answers.count(" stored ") == len(rows), answers
        return [list(csv.DictReader(zhcount("votes", "--of", of).splitlines())) for of in ("lists", "groups")]


class SoFar(Case):
    def opened(self, held=FEW, setup=SETUP, sheet=None):
        return self.page.show(sheet, setup, held)

    def test_a_set_up_and_returns(self):
        """A constituency's bar is full where all of its returns are held, and a group's where it has the most votes."""
        page = self.opened()
        self.assertEqual(page.bar(), ("none", "none"))
        self.assertEqual(page.seen("#kind", "#verdict", "#title", "#election", "#so-far p"), [[it] for it in (
            "NO SHEET YET", "i 4 of 9 returns are in", "10 seats in 3 constituencies",
            "Constituencies: Nord, Mitte, West. Groups: A, B, C. Votes: 1,240.",
            f"4 of 9 returns are in. Computed by this page, not proved. {OPEN}")])
        self.assertEqual(page.texts("#held-so-far :is(tbody, tfoot) tr"), ["Nord 3 of 3", "Mitte 1 of 3", "West 0 of 3", "Total 4 of 9"])
        self.assertEqual(page.texts("#votes-so-far :is(tbody, tfoot) tr"),
                         ["1 A 765 61.69% ✓ reached in Nord, Mitte", "2 B 300 24.19% ✓ reached in Nord", "3 C 175 14.11% ✓ reached in Nord",
                          "Total 1,240"])
        for css, name, wanted in (("#held-so-far", "Returns by constituency", [1, 1 / 3, 0]),
                                  ("#votes-so-far", "Votes by group", [1, 300 / 765, 175 / 765])):
            self.assertEqual((page.one(css).aria_role, page.one(css).accessible_name), ("table", name))
            for is_now, should in itertools.zip_longest(page.run(WIDTHS, css), wanted):
                self.assertAlmostEqual(is_now, should, delta=0.03)

    def test_a_refusal_in_place_of_a_sheet(self):
        self.plays("answers of the office in place of a sheet")

    def test_the_whole_folder(self):
        """Of all that is published together, the tables and the page itself are left, with a sheet and without one."""
        tables = [(f"table-{at}.csv", f"{head}\n1,1,525\n") for at, head in enumerate(HEADS)]
        before = [it for it in tables if "reaches_quorum" in it[1]]
        self.assertEqual((len(before), len(tables)), (2, 5))
        for rest, state in (((("no-seats", NO_SEATS), ("held.csv", FEW), *before), "answer"),
                            ((("sheet.txt", EXAMPLE), ("held.csv", ROWS), *tables), "right")):
            page = self.page.open().choose(*sorted((("index.html", self.page.path.read_text()), ("setup.toml", SETUP), *rest)))
            self.assertEqual((page.state(), page.texts(".had .file")), (state, [rest[0][0], "setup.toml", "held.csv"]))
            self.assertEqual("4 of 9 returns are in." in page.text("#so-far"), state == "answer")

    def test_nothing_where_there_is_a_sheet_or_a_file_is_not_read(self):
        for files in ((FEW, SETUP, EXAMPLE), (FEW, SETUP, EXAMPLE[:300]), (None, SETUP), (FEW, None),
                      (FEW, SETUP + "x\n"), (FEW + "x\n", SETUP)):
            self.assertEqual(self.opened(*files).text("#so-far"), "", files)

    def test_which_returns_are_in_and_who_reaches_a_quorum(self):
        page = self.opened(ROWS.splitlines(keepends=True)[0])
        self.assertIn("0 of 9 returns are in.", page.text("#so-far"))
        self.assertEqual(page.text("#votes-so-far tbody tr"), "1 A 0 – not reached")
        self.assertIn("9 of 9 returns are in.", self.opened(ROWS).text("#so-far"))
        self.assertNotIn(OPEN, page.text("#so-far"))
        # A list that was withdrawn has no votes, and its return is held; for one that does not stand no return is due.
        self.opened(changed(FEW, "1,3,1,175", "1,3,2,withdrawn"), changed(SETUP, '"C"\nstands = [1, 2, 3]', '"C"\nstands = [1]'))
        self.assertEqual(page.texts("#held-so-far td"), ["3 of 3", "1 of 2", "0 of 2", "4 of 7"])
        self.assertIn("C 0 0.00% not reached", page.text("#votes-so-far"))
        # Of the canton, and of many constituencies.
        election = model.Election(60, [1000] * 5, [[700, 250, 49]] * 5, quorum=49)
        self.opened(election.held(), election.setup())
        self.assertEqual(page.texts("#votes-so-far tbody tr"), [
            "1 Group 1 3,500 70.07% ✓ reached in 5 of 5", "2 Group 2 1,250 25.03% ✓ reached in 5 of 5",
            "3 Group 3 245 4.90% ✓ reached in the canton"])

    def test_an_older_election_is_said_to_be_another(self):
        """Its sheet can be opened first. It does not match the set-up, and is not called wrong for that."""
        self.assertIn("To compare with an older election, open its sheet first, and then the new one with its files.",
                      self.page.text(".drop"))
        older = model.Election(8, [4000, 3000, 1000], [[420, 300, 90], [240, 330, 30], [90, 60, 50]], names=["Nord", "Mitte", "West"],
                               groups=["A", "B", "C"]).sheet(commands=5)
        page = self.page.choose(("older", older)).choose(("sheet.txt", EXAMPLE), ("setup.toml", SETUP), ("held.csv", ROWS))
        self.assertEqual(page.state(), "right")
        self.assertIn("The sheet before does not match the set-up (line 2), as that of another election does not.", page.text("#changes"))
        self.assertEqual(page.texts("#changes .said.wrong"), [])
        self.assertIn("Nord, A: votes 420 525 +105", page.texts("#changes tbody tr"))
        page.choose(("wrong", changed(EXAMPLE, "voters 105 seats 3", "voters 105 seats 2"))).click("#files > p button")
        self.assertEqual(page.texts("#changes .said.wrong"), ["The sheet before is wrong at line 11."])

    @pytest.mark.usefixtures("program")
    def test_its_sums_are_those_of_the_program(self):
        """Returns by constituency, votes by group, and who reaches the quorum, where and at all; also before the first return."""
        kinds = set()
        for setup, rows in nights():
            lists, groups = counted(setup, rows)
            constituencies, votes, shown = self.page.run("""
                const setup = readSetup(arguments[0]);
                const { constituencies, groups, votes } = countSoFar(setup, readHeld(arguments[1], setup));
                return [constituencies.map(({ held, due }) => [held, due]), `${votes}`,
                  groups.map(({ name, votes, reaches, reachedIn }) => [name, `${votes}`, reaches ? 'yes' : 'no', reachedIn])];
            """, setup, "\n".join(["municipality,list,number,votes", *rows, ""]))
            for d, pair in enumerate(constituencies, 1):
                own = [it for it in lists if it["constituency"] == str(d)]
                self.assertEqual(pair, [sum(int(it[key]) for it in own) for key in ("held", "due")], setup)
            self.assertEqual({votes}, {it["all_votes"] for it in groups})
            reached = {it["group"]: [its["constituency_name"] for its in lists
                                     if its["group"] == it["group"] and its["reaches_quorum"] == "yes"] for it in groups}
            self.assertEqual(shown, [[it["group_name"], it["votes"], it["reaches_quorum"], reached[it["group"]]] for it in groups], setup)
            kinds |= {("withdrawn" in "".join(rows), reaches, len(where) > 0) for _, _, reaches, where in shown}
        # Lists were withdrawn, and some groups reach no quorum, some that of a constituency, and some that of the canton alone.
        self.assertLessEqual({(True, "no", False), (True, "yes", True), (True, "yes", False)}, kinds)
