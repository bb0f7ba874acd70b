"""What the page says of sheets: by what the two checks say, what was not opened, what kind of wrong a sheet is, and whether seats
change; and what the first screen shows of it."""
import model
import sheets
from case import EXAMPLE, LARGEST, OTHERS, ROWS, SETUP, WRONG, WRONG_KEY, Case, changed
from sheets import ZURICH

COPIED = EXAMPLE[len("1 "):]


class Kinds(Case):
    def test_each_kind(self):
        self.plays("what was opened, and what the proved check says")
        self.plays("what is wrong, does not match or can't be read")

    def test_a_sheet_that_was_copied_from_a_desk(self):
        """Its first line has no desk: whatever the file is called, the page says what is missing, and what to do."""
        for name in ("sheet", "sheet.csv", "sheet.toml"):
            page = self.page.open().choose((name, COPIED), ("setup.toml", SETUP), ("held.csv", ROWS))
            self.bar_is("damaged", "! Copied from a desk: the desk’s number is missing")
            self.assertIn("Line 1 of the sheet: the desk’s number is missing; put it and a space before this line (for desk 1: “1 sheet "
                          "provisional 9”)", page.text("#why"))
        page.show(COPIED.replace("\n", "\r\n"))
        self.bar_is("damaged", "! This file is damaged: get it again")

    def test_right_sheets_and_the_seats_that_follow(self):
        """The page's own check says right of each sheet of the repository and of some made up, and finds no other seats."""
        given = [files[:count] for files in sheets.all_sheets() for count in (1, 2, 3)]
        sizes = ((9, 8, 125, None), (18, 9, 180, 30), (4, 3, 20, 30), (1, 5, 40, None), (20, 13, 180, 1))
        given += [model.made_up(seed, *size, quorum=quorum).files() for seed, (*size, quorum) in enumerate(sizes)]
        self.assertEqual(set(self.page.states(*given)), {"right"})
        for files in [*given, LARGEST.files()]:
            # Null where none are found, or else those that differ from the sheet's.
            self.assertEqual(self.page.run("""
                const [sheet, text, rows] = arguments;
                const setup = text == null ? null : readSetup(text);
                const follow = seatsThatFollow(readSheet(sheet), setup, rows == null ? null : readHeld(rows, setup));
                return follow && otherSeats(readSheet(sheet), follow).map(({ names, should }) => `${names} ${should}`);
            """, *files), [], files[0][:400])

    def test_one_and_more(self):
        page = self.page.show("hello\n", SETUP)
        self.assertIn(" 1 line Remove", page.text(".had .sheet"))
        one = ["1 line, 1 check holds, Returns opened: the only one", "1 Zeile, 1 Prüfung bestanden, Meldungen geöffnet: die einzige"]
        two = ["2 lines, 2 checks hold, Returns opened: all 2", "2 Zeilen, 2 Prüfungen bestanden, Meldungen geöffnet: alle 2"]
        self.assertEqual(page.run("""
            return [1, 2, 1n].map((count) => LANGUAGES.map((one) => { language = one; return [say('lines', { count }),
              say('holds', { count }), say('tickRows', { possible: count })].join(', '); }));
        """), [one, two, one])

    def test_the_first_screen(self):
        """Verdict, election, ticks and parliament are seen at 1280 x 900 without scrolling."""
        self.has_screen(1280, 900, 1, False)
        more = changed(ROWS, "1,1,1,525", "1,1,1,526")
        for proved, *files in (("right", EXAMPLE, *OTHERS), ("alone", EXAMPLE), ("wrong", WRONG, *OTHERS), ("wrong", EXAMPLE, SETUP, more),
                               ("right", *ZURICH), ("alone", ZURICH.sheet), ("wrong", WRONG_KEY, *ZURICH[1:])):
            for language in ("en", "de"):
                self.page.speak(language)
                tops, bottoms = zip(*self.page.show(*files).proved(proved).run("""
                    return [...document.querySelectorAll('#verdict, #title, #election, #ticks, .arc, .legend')].map((it) => {
                      const { top, bottom } = it.getBoundingClientRect();
                      return [top, bottom];
                    });
                """))
                self.assertEqual((len(tops), len(self.page.texts("#ticks li"))), (6, 3))
                self.assertGreaterEqual(min(tops), 0)
                self.assertLessEqual(max(bottoms), 900)
