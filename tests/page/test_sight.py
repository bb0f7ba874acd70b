"""What is seen: names, edges, totals, words and panels, on a screen and on a phone."""
import html
import itertools
import re

import model
from case import EXAMPLE, LARGEST, OTHERS, ROWS, SETUP, WRONG_KEY, Case, changed
from sheets import ZURICH

# Names that turn a text round, and how they are shown.
NAMES = {"\u202eX 11": "<U+202E>X 11", "\u05d0\u05d1 11": "\u05d0\u05d1 11"}


def luminance(colour):
    parts = [int(part) / 255 for part in re.findall(r"\d+", colour)[:3]]
    return sum(w * (p / 12.92 if p <= 0.03928 else ((p + 0.055) / 1.055) ** 2.4) for w, p in zip((0.2126, 0.7152, 0.0722), parts))


def contrast(one, other):
    high, low = sorted((luminance(one), luminance(other)), reverse=True)
    return (high + 0.05) / (low + 0.05)


class Sight(Case):
    def is_isolated(self, name):
        """The page has this name only in elements that isolate it, or in an attribute with the characters that do so."""
        whole = self.page.run("return [...document.body.children].map((it) => (it.tagName === 'SCRIPT' ? '' : it.outerHTML)).join('')")
        self.assertNotIn("\u202e", whole)
        text = html.unescape(re.sub("<bdi\\b.*?</bdi>", "", whole)).replace(f"\u2068{name}\u2069", "")
        self.assertEqual(re.findall(f".{{0,30}}{re.escape(name)}", text), [])

    def test_names_are_isolated(self):
        other = changed(EXAMPLE, "votes 525", "votes 526")
        for (name, seen), old in itertools.product(NAMES.items(), ("Nord", "1.000000 A")):
            sheet = changed(EXAMPLE, old, f"1.000000 {name}" if old != "Nord" else name)
            for files in ((sheet,), (sheet, SETUP), (sheet, SETUP.replace('"A"', f'"{name}"'), ROWS)):
                page = self.page.show(*files)
                for row, column in ((1, 0), (0, 1), (1, 1)):
                    page.cell(row, column)
                    self.is_isolated(seen)
                page.run("takeFiles([opened('other', new TextEncoder().encode(arguments[0]))])", other)
                self.is_isolated(seen)
        self.assertEqual(self.page.open().choose(("a\u202etxt.toml", EXAMPLE)).text(".had .file bdi"), "a<U+202E>txt.toml")

    def test_edges_of_seats(self):
        """Each seat has an edge that stands out from the ground, 3 to 1, on a screen and on paper, light and dark."""
        page = self.page.show(LARGEST.sheet())
        for medium, scheme in itertools.product(("screen", "print"), ("light", "dark")):
            self.has_medium(medium, scheme)
            ground, letters, *shapes = page.run("""
                const { backgroundColor, color } = getComputedStyle(document.body);
                const shapes = [...document.querySelectorAll('.arc .seat, .arc .hole, .swatch .seat')];
                return [backgroundColor, color, ...shapes.map((shape) => [shape.getAttribute('class'), getComputedStyle(shape).stroke])];
            """)
            self.assertEqual(luminance(ground) < luminance(letters), (medium, scheme) == ("screen", "dark"))
            self.assertGreater(contrast(ground, letters), 10)
            self.assertGreater(len(shapes), 400)
            for name, stroke in set(map(tuple, shapes)):
                self.assertGreaterEqual(contrast(stroke, ground), 3, (name, stroke, ground))

    def test_a_phone(self):
        """The totals stay in sight, a table that goes on says so, and the panel leaves half."""
        self.assertEqual(self.page.show(EXAMPLE).text("#scrolls"), "")
        self.has_screen(375, 667, 2, True)
        for files in (ZURICH[:2], LARGEST.files()[:2]):
            page = self.page.show(*files)
            self.assertIn("The table goes on: scroll it.", page.text("#scrolls"))
            page.run("find('seats-part').scrollIntoView({ block: 'end' })")
            for left, top in ((0, 0), (90, 60), (99999, 99999)):
                box, right, foot, name = page.run("""
                    find('seats-part').scrollTo(...arguments);
                    return ['#seats-part', '#seats thead .sum', '#seats tfoot th', '#seats .corner'].map(
                      (css) => document.querySelector(css).getBoundingClientRect().toJSON());
                """, left, top)
                self.assertLessEqual(right["right"], box["right"] + 1)
                self.assertGreaterEqual(right["left"], box["left"])
                self.assertLessEqual(foot["bottom"], min(box["bottom"] + 1, 668))
                self.assertGreaterEqual(name["left"], box["left"] - 1)
            for row, column in ((1, 0), (0, 1), (1, 1)):
                self.assertLessEqual(page.cell(row, column).run("return find('detail').offsetHeight"), 667 / 2)

    def test_nothing_is_wider_than_a_phone(self):
        self.has_screen(360, 740, 2, True)
        largest = LARGEST.files()
        for files in (ZURICH[:1], largest[:1], (WRONG_KEY,), (None, *OTHERS), (None, *ZURICH[1:]), (None, *largest[1:])):
            for language in ("en", "de"):
                self.page.speak(language)
                self.assertLessEqual(self.page.show(*files).run("return document.documentElement.scrollWidth"), 360)

    def test_words_are_not_broken(self):
        """A name goes on in a new line only after a hyphen or a blank."""
        names = ["Winterthur-Land", "Dietikon und Urdorf", "Bezirk Pfäffikon", "Affoltern", "Horgen, Thalwil und Wädenswil"]
        groups = ["Sozialdemokratische Partei", "Schweizerische Volkspartei", "FDP.Die Liberalen", "Grünliberale Partei",
                  "Eidgenössisch-Demokratische", "Alternative Liste"]
        sheet = model.made_up(2, 5, 6, 40, names=names, groups=groups).sheet()
        for width in (1280, 375):
            self.has_screen(width, 900, 1, False)
            self.assertEqual(self.page.show(sheet).run("""
                const rects = (text, at) => {
                  const range = document.createRange();
                  range.setStart(text, at);
                  range.setEnd(text, at + 1);
                  return [...range.getClientRects()].filter(({ width }) => width > 0);
                };
                const names = [...document.querySelectorAll('.legend .name bdi, #seats:not(.crowded) .name bdi, #seats tbody .name bdi')];
                return names.flatMap(({ firstChild: text }) => [...text.data.matchAll(/[^\\s\\u00ad-]+/gu)].filter(({ 0: part, index }) => (
                  // A hyphen that is seen belongs to the letter beside it.
                  Math.abs(rects(text, index).at(-1).top - rects(text, index + part.length - 1)[0].top) > 4)).map(([part]) => part));
            """), [])

    def test_thousands_are_set_apart(self):
        self.assertEqual(self.page.run(
            "return ['999', '1000', '1234567.1234567', '28518 / (7242.666666 × 1.007187)', '10000/10', '3909..', '+30000'].map(grouped)"),
            ["999", "1,000", "1,234,567.1234567", "28,518 / (7,242.666666 × 1.007187)", "10,000/10", "3,909..", "+30,000"])
        page = self.page.show(EXAMPLE.replace("provisional 9", "provisional 18446744073709551615").replace("Nord", "N 2027"))
        self.assertIn("(18,446,744,073,709,551,615, it says)", " ".join(page.texts("#why p")))
        self.assertEqual(page.texts("#seats tbody th")[0], "N 2027")

    def test_the_bar_and_the_ticks_can_be_read(self):
        """In each colour, light and dark, each text stands out from its ground, 4.5 to 1."""
        bar, ticks, election = ("#bar", "#verdict", "#why p", "#kind"), ("li", "#ticks p, #ticks .mark"), ("body", "#election")
        wrong = changed(EXAMPLE, "voters 230 seats 5", "voters 230 seats 6")
        for scheme, (proved, places, *files) in itertools.product(("dark", "light"), (
                *((state, (bar, ticks, election), EXAMPLE, *OTHERS) for state in ("right", "wrong", "absent")),
                ("alone", [("li", "#ticks .hint, #ticks .mark")], EXAMPLE),
                ("wrong", [("#bar", "#verdict", "#verdict .mark", "#why p", "#kind .kind")], "1 refused nogroup\n"),
                ("wrong", [("body", ".legend .said.wrong")], wrong, SETUP))):
            self.has_medium(scheme=scheme)
            self.page.show(*files).proved(proved)
            for css, ground in ((css, ground) for ground, *texts in places for css in texts):
                found = self.page.run("""
                    const [css, ground] = arguments;
                    return [...document.querySelectorAll(css)].map((one) => [getComputedStyle(one).color,
                      getComputedStyle(one.closest(ground) ?? document.querySelector(ground)).backgroundColor, one.textContent]);
                """, css, ground)
                self.assertGreater(len(found), 0, css)
                for colour, behind, text in found:
                    self.assertGreaterEqual(contrast(colour, behind), 4.5, (css, text))
