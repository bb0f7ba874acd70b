"""What the tests of the page share."""
import pathlib
import unittest

import pytest

import browser
import model
import sheets
from cases import turns

SAID = pathlib.Path(__file__).with_name("said.case")
EXAMPLE, SETUP, ROWS = (next(turns(SAID))[1][name].decode() for name in ("sheet", "setup.toml", "held.csv"))
# The set-up and the returns that belong to the example.
OTHERS = (SETUP, ROWS)
LARGEST = model.made_up(1, 32, 32, 400, quorum=1)
HEADINGS = {"wrong": "✗ Wrong: ", "mismatch": "≠ Does not match the ", "damaged": "! This file is "}
# German words besides those for a desk, an entry, the office, a sheet, a set-up and a verdict; and what a Swiss office does not write.
OTHER_WORDS = r"ß|Set-up|vorläufig|Urteil|Tausenderstrich|\b(Platz|Plätze|Eingabe|Büro|Blatt|Blätter)"


def changed(text, old, new):
    """The text with this in the place of that, which occurs once."""
    assert text.count(old) == 1, old
    return text.replace(old, new)


WRONG = changed(EXAMPLE, "list 1 1 votes 525 voters 105 seats 3", "list 1 1 votes 525 voters 105 seats 2")
WRONG_KEY = changed(sheets.ZURICH.sheet, "seats key 38000/38", "seats key 38000/39")


def said(title=""):
    """The word, the rest and the files of each turn of said.case, or of the case with this title."""
    current = ""
    for line, files in turns(SAID):
        word, _, rest = line.partition(" ")
        current = rest if word == "case" else current
        if title in ("", current):
            yield word, rest, files


class Case(unittest.TestCase):
    """Tests with one browser for a whole class, so that it runs in one process. Each test opens the page anew."""
    language = "en-GB"
    path = browser.PAGE  # of the page that is tested
    starts, ends = staticmethod(browser.started), staticmethod(lambda driver: driver.quit())

    def __init_subclass__(cls):
        super().__init_subclass__()
        cls.pytestmark = pytest.mark.xdist_group(cls.__name__)

    @classmethod
    def setUpClass(cls):
        cls.driver = cls.starts(cls.language)
        cls.addClassCleanup(cls.ends, cls.driver)

    def setUp(self):
        self.page = browser.Page(self.driver, self.path)

    def has_screen(self, width, height, scale, is_mobile):
        """Gives the browser another screen, until the end of the test."""
        screen = {"width": width, "height": height, "deviceScaleFactor": scale, "mobile": is_mobile}
        self.driver.execute_cdp_cmd("Emulation.setDeviceMetricsOverride", screen)
        self.addCleanup(self.driver.execute_cdp_cmd, "Emulation.clearDeviceMetricsOverride", {})

    def has_medium(self, medium="", scheme="light"):
        """Gives the browser another medium, for example 'print', and light or dark colours, until the end of the test."""
        features = [{"name": "prefers-color-scheme", "value": scheme}]
        self.driver.execute_cdp_cmd("Emulation.setEmulatedMedia", {"media": medium, "features": features})
        self.addCleanup(self.driver.execute_cdp_cmd, "Emulation.setEmulatedMedia", {"media": "", "features": []})

    def bar_is(self, state, heading):
        self.assertEqual((self.page.state(), self.page.text("#verdict")), (state, heading))

    def holds(self):
        """The page's own check says right. Which colour the bar has depends on the files that were opened (test_bar.py)."""
        self.assertEqual(self.page.bar(), ("right", "unsure"), self.page.text("#problems"))
        self.assertEqual(self.page.seen("#parts tr.bad", ".fault"), [[], []])

    def fails(self, state, part, line, reason):
        """The bar has this state; the first fault is of this part ("-": the sheet can't be read), in this line, and for this reason."""
        self.assertEqual(self.page.bar(), ("wrong", state))
        (verdict,), reasons, (text, *_), parts = self.page.seen("#verdict", ".fault .reason", ".fault pre", "#parts tr.bad th")
        self.assertTrue(verdict.startswith(HEADINGS[state]), verdict)
        self.assertIn(reason, reasons[0])
        self.assertRegex(text, f"^{line}:")
        self.assertEqual([it.split()[1] for it in parts[:1]], [] if part == "-" else [part])

    def plays(self, title):
        """Each turn of a case of said.case, whose first lines explain them."""
        self.assertIn(f"\ncase {title}\n", SAID.read_text())
        for word, rest, files in said(title):
            if word == "open":
                self.page.show(*(files.get(name) for name in rest.split()))
            elif word == "proved":
                self.page.proved(*rest.split(" ", 1))
            elif word == "bar":
                self.bar_is(*rest.split(" ", 1))
            elif word == "says":
                self.assertIn(rest, self.page.text("body"))
            elif word == "not":
                self.assertNotIn(rest, self.page.text("body"))
            elif word == "right":
                self.holds()
            elif word in HEADINGS:
                self.fails(word, *rest.split(" ", 2))
            elif word == "cell":
                self.page.cell(*rest.split())
            elif word == "panel":
                self.assertIn(rest, self.page.text("#detail"))
            else:
                self.assertIn(word, ("case", "file", "replace"))
