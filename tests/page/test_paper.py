"""The page on paper."""
import base64
import hashlib
import re

import model
from browser import NAMES
from case import EXAMPLE, LARGEST, ROWS, SETUP, WRONG_KEY, Case
from sheets import ZURICH

CALLED, FEW = "The sheet calls itself “final”", "".join(ROWS.splitlines(keepends=True)[:5])


class Paper(Case):
    def printed(self, *files, proved="absent", pages=1):
        """The text on paper, which is A4, on this number of pages if one is given."""
        page = self.page.show(*files).proved(proved)
        pdf = base64.b64decode(self.driver.execute_cdp_cmd("Page.printToPDF", {"preferCSSPageSize": True})["data"])
        if pages:
            self.assertEqual(len(re.findall(rb"/Type\s*/Page\b", pdf)), pages)
        *_, width, height = re.search(rb"/MediaBox\s*\[([^\]]*)\]", pdf)[1].split()
        self.assertAlmostEqual(float(width), 595, delta=2)
        self.assertAlmostEqual(float(height), 842, delta=2)
        self.has_medium("print")
        text = page.text("body")
        self.has_medium()
        return text

    def test_one_page_with_kind_commands_files_and_lines_to_sign(self):
        text = self.printed(*ZURICH, proved="right")
        for part in (CALLED, "Right", "how many entries of the desks it counts (81, it says)", "Set-up opened", "Both checks say: right",
                     "Place", "Date", "checks hold"):
            self.assertIn(part, text)
        self.assertEqual(text.count("Signature"), 2)
        self.assertNotRegex(text, "Choose|Deutsch")
        for name, content in zip(NAMES, ZURICH):
            self.assertIn(f"{name} {hashlib.sha256(content.encode()).hexdigest()}", text)

    def test_what_is_not_right_is_not_to_be_signed(self):
        for sheet, others, proved, said in (
                (WRONG_KEY, ZURICH[1:], "wrong", "Wrong: a key; the seats are right"),
                (WRONG_KEY, ZURICH[1:], "right", "The two checks differ"), (ZURICH.sheet, ZURICH[1:], "wrong", "The two checks differ"),
                (ZURICH.sheet, ZURICH[1:], "failed", "right by one check of two"),
                (ZURICH.sheet, ZURICH[1:2], "right", "right for the votes on the sheet"),
                (ZURICH.sheet, (), "alone", "the seats fit the votes on the sheet"),
                (WRONG_KEY, (), "absent", "Wrong: a key; the seats are right")):
            text = self.printed(sheet, *others, proved=proved)
            self.assertNotRegex(text, "Signature|Place|Date")
            self.assertIn(said, text)
            self.assertIn(CALLED, text)
            self.assertEqual("setup.toml" in text, bool(others))

    def test_before_there_are_seats(self):
        """On one page, with the files and without what is for a screen."""
        for setup, held in ((SETUP, FEW), LARGEST.files()[1:]):
            text = self.printed(None, setup, held)
            self.assertIn("Computed by this page, not proved.", text)
            self.assertIn("The files that were opened", text)
            self.assertNotRegex(text, "Choose|Deutsch|Signature|Colours of the groups")

    def test_small_and_large_ones_and_long_names_are_one_page_too(self):
        self.printed(EXAMPLE)
        self.assertIn(CALLED, self.printed(*LARGEST.files(), proved="right"))
        for rows, columns in ((18, 9), (20, 20), (12, 12)):
            self.printed(*model.made_up(5, rows, columns, 180, quorum=1).files(), proved="right")
        for rows, columns in ((4, 4), (6, 6), (7, 10), (10, 7), (12, 12), (18, 11), (20, 13), (32, 6), (6, 32), (32, 32)):
            sheet, setup, held = model.made_up(1, rows, columns, 400 if rows == columns == 32 else 180, quorum=1,
                                               groups=[f"Group with the longest name of all no {g:02d}" for g in range(columns)],
                                               names=[f"Constituency with the longest name no {d:02d}" for d in range(rows)]).files()
            self.printed(sheet, setup, held, proved="right")
        self.printed(sheet.replace("persons", "person"), setup)
        # Hundreds of faults are on paper too, each of them, on more pages.
        text = self.printed(re.sub(r"seats 1$", "seats 2", sheet, flags=re.M), setup + "x\n", pages=None)
        self.assertGreater(text.count("rounds to 1"), 100)
