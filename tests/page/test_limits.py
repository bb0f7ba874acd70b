"""The limits of set-ups, rows and sheets, and inputs that would take long."""
import hashlib

from case import EXAMPLE, LARGEST, ROWS, SETUP, Case, changed

MIB = 1_048_576
LONGEST_SHEET, LONGEST_ROWS = 280_064, 483_488
# Files are read, checked, shown and laid out in fewer than MOST milliseconds; going through a text again and again takes more. On a busy
# or slow machine the limit grows with the time of a loop, which takes YARDSTICK milliseconds on a free one.
MOST, YARDSTICK = 5000, 60

HOUSE, ROW, HEAD = "house = 10", "1,2,1,300", "municipality,list,number,votes\n"
BLANK, COMMENT, RETURN, NO_ROW = ("not understood here", "its comment has a control character", "a carriage return (CR)",
                                  "no row of four numbers up to 4,294,967,295")
# Faults of a set-up: the line, why, a text, and others in its place.
SET_UPS = (
    *((2, BLANK, HOUSE, f"house ={it}10", f"{it}house = 10", f"house = 10{it}") for it in "\u00a0\u000b\u000c\u2003\ufeff\u2028"),
    *((3, BLANK, HOUSE, f"house = 10\n{it}") for it in "\u00a0\u000b\u000c\u2003\ufeff\u2028"),
    (2, BLANK, HOUSE, "house = 010", "house = 1_0"), (5, BLANK, "persons = 5000", "persons = 05000"),
    (23, BLANK, '"A"\nstands = [1, 2, 3]', '"A"\nstands = [01, 2, 3]'),
    *((2, COMMENT, HOUSE, f"house = 10 # {it}") for it in "\0\1\b\u000b\u001f\u007f"),
    *((3, COMMENT, HOUSE, f"house = 10\n#{it}") for it in "\0\1\b\u000b\u001f\u007f"),
    (2, RETURN, f"{HOUSE}\n", "house = 10\r\r\n", "house = 10\rx\n"),
    (SETUP.count("\n") + 1, RETURN, SETUP, SETUP + "# the end\r"),
    (1, RETURN, SETUP, SETUP.replace("\n", "\r")),
    (0, "more than 1,048,576 bytes", SETUP, SETUP.ljust(MIB, "#") + "\n"),
    (2, "not known here", HOUSE, "colour = 10"), (2, "from 1 to 400", HOUSE, "house = 401"),
    (1, "from 1 to 2", "version = 1", "version = 3"), (4, "another kind", 'name = "Nord"', "name = 5"),
    (7, "this name is there twice", '"Mitte"', '"Nord"'),
    (1, "“house” is missing", HOUSE, ""), (3, "“house” is there twice", HOUSE, "house = 10\nhouse = 10"))
MAY_HAVE = ("\t house\t =\t10 \t", "house = 10 # a tab\tis none, nor is \u00e9\u2028", "\n# a remark\n\nhouse = 10  # more")
# Faults of rows.
HELD = ((3, NO_ROW, ROW, "1,2,4294967296,300", "1,2,0,300", "1,2,1,4294967296", "4294967296,2,1,300", "1,4294967296,1,300",
         "1,2,1,300,", "1,2,1,0300", "1,2,1, 300", "1,2,1,\u0663", "1,2,1"),
        (3, "more than 1,000,000,000 votes", ROW, "1,2,1,4294967295"), (4, "there twice", "1,3,1,175", "1,2,1,175"),
        (3, "does not stand there", ROW, "1,4,1,300"), (0, "more than 483,488 bytes", ROWS, ROWS.ljust(LONGEST_ROWS + 1, "\n")))


def without_divisors():
    """The largest sheet with votes along a diagonal alone, for which no divisors exist; that is not soon seen."""
    numbers = range(1, 33)
    lines = ["1 sheet final 1", "house 400", "seats key 1/1", "upper key 1/1"]
    lines += [f"constituency {d} persons {1000 + 37 * d} seats 12 votes 1 divisor 1.000000 D{d}" for d in numbers]
    lines += [f"group {g} quorum yes voters 1 seats 12 divisor 1.000000 G{g}" for g in numbers]
    lines += [f"list {d} {g} votes {1000 + 7 * d + g if d - g in (0, 1) else 0} voters 1 seats 1" for d in numbers for g in numbers]
    return "\n".join(lines + ["end"]) + "\n"


class Limits(Case):
    def are_faults(self, wanted, text, may_be, setup=None):
        """The text of a set-up, or of rows with a set-up, has these faults where it is changed so. The other texts have none."""
        cases = [(line, reason, changed(text, old, new)) for line, reason, old, *others in wanted for new in others]
        found = self.page.run("""
            const [texts, setup] = arguments;
            const [name, read] = setup === null ? ['setup.toml', readSetup] : ['held.csv', (text) => readHeld(text, readSetup(setup))];
            return texts.map((text) => {
              const { fault } = readFile(opened(name, new TextEncoder().encode(text)), read);
              return fault ? [fault.line, make('p', {}, reasonOf(fault)).textContent] : null;
            });
        """, [*(it[-1] for it in cases), *may_be], setup)
        for (line, reason, _), fault in zip(cases, found):
            self.assertEqual(fault and fault[0], line, reason)
            self.assertIn(reason, fault[1])
        self.assertEqual(found[len(cases):], [None] * len(may_be))

    def test_set_ups(self):
        """Only spaces and tabs are blanks, numbers do not begin with zeros, comments have no control characters, and so on."""
        self.are_faults(SET_UPS, SETUP, [*(changed(SETUP, HOUSE, it) for it in MAY_HAVE), SETUP.replace("\n", "\r\n"),
                                         SETUP.ljust(MIB - 1, "#") + "\n"])

    def test_rows(self):
        longest = sum(len(f"{m},{g},4294967295,1000000000\n") for m in range(1, 513) for g in range(1, 33)) + len(HEAD)
        self.assertEqual(longest + 32 * 512 + 1, LONGEST_ROWS)
        self.are_faults(HELD, ROWS, [changed(ROWS, ROW, "1,2,4294967295,300"), ROWS.ljust(LONGEST_ROWS, "\n")], SETUP)

    def test_the_longest_sheet(self):
        self.assertLess(len(LARGEST.sheet().encode()), LONGEST_SHEET)
        for length, reason in ((LONGEST_SHEET, "something follows"), (LONGEST_SHEET + 1, "more than 280,064 bytes"),
                               (4_000_000, "more than 280,064 bytes")):
            self.assertIn(reason, self.page.sheet(EXAMPLE.ljust(length, "x")).text(".fault .reason"))
            self.bar_is("wrong", "✗ Wrong: this is not a sheet")
            self.assertEqual(self.page.text("#kind"), "NOT READABLE AS A SHEET")

    def test_sums(self):
        """SHA-256 of texts of each length about a block, and of the longest."""
        lengths = [*range(130), 1000, MIB]
        sums = self.page.run("return arguments[0].map((length) => sha256(Uint8Array.from({ length }, (_, i) => i % 251)))", lengths)
        self.assertEqual(sums, [hashlib.sha256(bytes(i % 251 for i in range(length))).hexdigest() for length in lengths])

    def is_quick(self, *given):
        """Opening these files, (name, content) each, takes a time in proportion to their length. The shorter of two tries counts."""
        self.assertLess(self.page.run("""
            const [given, limit, yardstick] = arguments;
            const bytes = (it) => (typeof it === 'string' ? new TextEncoder().encode(it) : Uint8Array.from(it));
            const contents = given.map(([name, it]) => [name, bytes(it).subarray(0, MOST_READ)]);
            const timed = (work) => { const begun = performance.now(); work(); return performance.now() - begun; };
            const loop = () => { for (let [i, sum] = [0n, 0n]; i < 3000000n; i += 1n) sum = (sum * 31n + i) % 1000003n; };
            const tried = () => {
              Object.assign(files, { sheet: null, before: null, setup: null, held: null });
              const time = timed(() => { takeFiles(contents.map((it) => opened(...it))); document.body.getBoundingClientRect(); });
              return time < limit ? time : time / Math.max(1, timed(loop) / yardstick);
            };
            const first = tried();
            return first < limit ? first : Math.min(first, tried());
        """, given, MOST, YARDSTICK), MOST, [text[:40] for _, text in given])

    def test_sheets_take_little_time(self):
        """Also one whose last byte is not text, the largest with each line wrong, and two of them that differ in each list."""
        for text in (*("\n" * count for count in (60_000, 120_000, 240_000, MIB)), " \n" * 30_000,
                     *(changed(EXAMPLE, "Nord", name) for name in ("x" * 3_900_000, "x" * 279_000, " " * 279_000, "\u202e" * 90_000)),
                     "1 sheet final " + "9" * 280_000 + "\n", without_divisors(), [*b"\n" * 200_000, 255]):
            self.is_quick(("sheet", text))
        largest, setup, held = LARGEST.files()
        wrong = largest.replace(" seats 1\n", " seats 399\n").replace(" votes ", " votes 9")
        self.is_quick(("sheet", wrong), ("setup.toml", setup), ("held.csv", held))
        self.is_quick(("sheet", largest), ("another", wrong))

    def test_set_ups_and_rows_take_little_time(self):
        for text in ("house = 10" + " " * 60_000 + "x\n", " " * MIB, "house" + " " * 1_048_000 + "= 1", "\n" * MIB,
                     "stands = [1" + " " * 500_000 + "," + " " * 500_000 + "x]", "[[group]]\nstands = [1" + ",1" * 500_000 + "]\n",
                     'name = "' + "x" * 1_048_000, 'name = "' + "\\\\" * 500_000, "x" * 1_048_000 + " = 1", "#" * MIB,
                     "[[group]]\n" * 100_000, "[" * MIB, "\r" * MIB):
            self.is_quick(("sheet", EXAMPLE), ("setup.toml", text))
        for text in ("\n" * 483_000, "," * 483_000, "1" * 483_000, "1,1,1,1\n" * 487_500):
            self.is_quick(("sheet", EXAMPLE), ("setup.toml", SETUP), ("held.csv", HEAD + text))
