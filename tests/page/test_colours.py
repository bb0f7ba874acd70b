"""Colours that a reader chooses for groups, which the address keeps."""
from selenium.webdriver.common.keys import Keys

from case import EXAMPLE, LARGEST, OTHERS, Case
from test_sight import contrast

RED, YELLOW = "rgb(227, 6, 19)", "rgb(255, 237, 0)"
SO_FAR = (None, *OTHERS)
# Addresses without a colour: only a number of a group and a colour of six digits count.
NONE = ("#x", "#0=e30613", "#33=e30613", "#2=red", "#2=e3061", "#2=e30613}body{display:none", "#2", "#__proto__=e30613")


class Chosen:
    """In each browser."""

    def at(self, address, *files):
        """The page with these files, opened at an address that ends so."""
        self.driver.get("about:blank")
        self.driver.get(self.page.path.as_uri() + address)
        return self.page.show(*files)

    def fills(self, css):
        return self.page.run("return [...document.querySelectorAll(arguments[0])].map((one) => getComputedStyle(one).fill)", css)

    def test_colours_that_are_chosen(self):
        """They are those of the group's seats, signs and bar, and the address keeps them. A page that is opened at this address has them,
        before there are seats too, and shows them to be chosen anew."""
        page = self.at("", EXAMPLE)
        before = self.fills(".arc g:nth-of-type(2) .seat")
        for group, colour, address in ((2, "#e30613", "#2=e30613"), (1, "#ffed00", "#2=e30613&1=ffed00")):
            # As the browser's own dialog gives it.
            self.assertEqual(page.run("""
                const input = document.querySelectorAll('#colours input')[arguments[0] - 1];
                input.value = arguments[1];
                input.dispatchEvent(new Event('change', { bubbles: true }));
                return location.hash;
            """, group, colour), address)
        for css in (".arc g:nth-of-type(2) .seat", ".legend li:nth-child(2) .seat", "#seats thead th:nth-child(3) .seat"):
            self.assertEqual(set(self.fills(css)), {RED}, css)
        self.assertNotIn(RED, self.fills(".arc g:nth-of-type(1) .seat"))
        page.run("document.getElementById('colours').open = true; document.querySelector('#colours button').click()")
        self.assertEqual((page.run("return location.hash"), self.fills(".arc g:nth-of-type(2) .seat")), ("", before))

        self.at("#2=E30613&1=ffed00", *SO_FAR)
        self.assertEqual(self.fills("#votes-so-far .part")[:2], [YELLOW, RED])
        self.assertEqual(page.run("return [...document.querySelectorAll('#colours input')].map((one) => one.value)"),
                         ["#ffed00", "#e30613", "#009e73"])
        page.run("location.hash = '#3=e30613'")
        page.wait("return document.querySelectorAll('#colours input')[2].value === '#e30613'")
        self.assertEqual(self.fills("#votes-so-far .part")[2], RED)


class Colours(Chosen, Case):
    def test_another_address_has_no_colours(self):
        for address in NONE:
            page = self.at(address, *SO_FAR)
            rules = page.run("return [...document.styleSheets[0].cssRules].map((it) => it.selectorText ?? '')")
            self.assertEqual([it for it in rules if it.startswith(".group")], [], address)
            self.assertIn("9 of 9 returns are in.", page.text("#so-far"))

    def test_the_part_stays_open(self):
        """In another language too, with the focus where it was. The keyboard is enough."""
        page = self.at("", *SO_FAR)
        page.run("document.querySelector('#colours summary').focus()")
        page.press(Keys.ENTER, Keys.TAB)
        page.run("show()")
        self.assertEqual(page.text("#colours th bdi"), "A")
        self.assertEqual(page.driver.switch_to.active_element.get_attribute("aria-label").strip("\u2068\u2069"), "Colour of \u2068A")
        page.press(Keys.TAB, Keys.TAB, Keys.TAB)
        self.assertEqual(page.driver.switch_to.active_element.text, "Colours by number again")
        page.speak("de")
        self.assertIn("die Adresse dieser Seite behält sie", page.text("#colours"))

    def test_any_colour_can_be_seen(self):
        """The number on it is black or white, whichever stands out, and its edge stands out from the ground, light and dark. The bar has
        its own colour."""
        colours = ("000000", "ffffff", "ffed00", "e30613", "777777", "161719", "0b3861")
        page = self.at("#" + "&".join(f"{i}={colour}" for i, colour in enumerate(colours, 1)), LARGEST.sheet())
        for scheme in ("light", "dark"):
            self.has_medium(scheme=scheme)
            ground = page.one("body").value_of_css_property("background-color")
            for on, fill, stroke in page.run("""
                const styles = (css) => [...document.querySelectorAll(`.legend ${css}`)].map((one) => getComputedStyle(one));
                return styles('.number').map(({ fill }, i) => [fill, styles('.seat')[i].fill, styles('.seat')[i].stroke]);
            """)[:len(colours)]:
                self.assertGreaterEqual(contrast(stroke, ground), 3, (fill, scheme))
                self.assertGreaterEqual(contrast(on, fill), 4.5, (fill, scheme))
        self.at("#1=b00020", EXAMPLE, *OTHERS).proved("right")
        self.bar_is("right", "✓ Right")
