"""The page in use: hostile names, no network, keys, drops, meaning, languages, and its size."""
import json
import re

from selenium.webdriver.common.keys import Keys

from browser import SHOWN
from case import EXAMPLE, LARGEST, OTHER_WORDS, ROWS, SETUP, WRONG, Case, changed
from sheets import ZURICH

HOSTILE = "<img src=x onerror=alert(1)>"


class Use(Case):
    def complaints(self):
        """What the browser complained about: scripts that failed, and what the content policy refused."""
        return [entry["message"] for entry in self.driver.get_log("browser")]

    def test_hostile_names_are_text(self):
        self.complaints()
        page = self.page.show(changed(EXAMPLE, "1.000000 A", f"1.000000 {HOSTILE}").replace("Nord", "<b>N</b>"))
        self.holds()
        for css in (".legend", "#seats thead"):
            self.assertIn(HOSTILE, page.text(css))
        self.assertIn(f"<b>N</b>, {HOSTILE}", page.cell(1, 1).text("#detail"))
        self.assertIn(HOSTILE, page.choose(("second", EXAMPLE)).text("#changes"))
        self.assertEqual(page.texts("img, b, iframe, [onerror]"), [])
        page.show(f"{HOSTILE}\n")
        self.fails("wrong", "-", 1, "it does not belong here")
        self.assertIn(HOSTILE, page.text(".fault pre"))
        page.show(None, SETUP.replace('"A"', f'"{HOSTILE}"').replace('"Nord"', f'"{HOSTILE}"'), ROWS)
        for css in ("#held-so-far", "#votes-so-far"):
            self.assertIn(HOSTILE, page.text(css))
        self.assertEqual(page.texts("img, [onerror]"), [])
        self.assertEqual(self.complaints(), [])

    def test_the_policy_stops_markup(self):
        """Were a name ever inserted as markup, nothing would run or be fetched."""
        self.page.run("""
            window.refused = 0;
            document.addEventListener('securitypolicyviolation', () => { window.refused += 1; });
            document.body.insertAdjacentHTML('beforeend', `<img src=https://example.org/x onerror='document.title = 1'>
              <div onclick='document.title = 2' id=d>x</div>`);
            document.getElementById('d').click();
        """)
        self.page.wait("return window.refused >= 2 || ['1', '2'].includes(document.title)")
        self.assertNotIn(self.driver.title, ("1", "2"))

    def test_no_request_is_made(self):
        """Except for the page, and for the worker's text, which comes from the page itself."""
        self.complaints(), self.driver.get_log("performance")
        page = self.page.sheet(*ZURICH).cell(1, 1)
        page.speak("de")
        messages = [json.loads(entry["message"])["message"] for entry in self.driver.get_log("performance")]
        asked = {it["params"]["request"]["url"] for it in messages if it["method"] == "Network.requestWillBeSent"}
        self.assertEqual({it for it in asked if not it.startswith("blob:")}, {page.path.as_uri()})
        self.assertEqual(self.complaints(), [])

    def focus(self, attribute):
        """Of the element that has the focus; without the characters that isolate names."""
        return re.sub("[\u2068\u2069]", "", self.driver.switch_to.active_element.get_attribute(attribute) or "")

    def test_the_keyboard_alone(self):
        page = self.page
        page.one("body").send_keys(Keys.TAB)
        page.press(Keys.TAB, Keys.TAB)
        self.assertEqual(self.focus("id"), "pick")
        page.press(Keys.TAB, Keys.ENTER, Keys.TAB)
        self.assertEqual(self.focus("id"), "text")
        page.press(EXAMPLE.rstrip("\n"), Keys.TAB, Keys.ENTER)
        self.assertEqual(page.bar(), ("right", "unsure"))
        for _ in range(12):
            if "Nord, A" not in self.focus("aria-label"):
                page.press(Keys.TAB)
        self.assertEqual(self.focus("aria-label"), "Nord, A: 3, holds")
        page.press(Keys.ARROW_DOWN, Keys.ARROW_RIGHT, Keys.ENTER)
        self.assertIn("Mitte, B: 2 seats", page.text("#detail h2"))
        page.press(Keys.ESCAPE)
        self.assertEqual(page.text("#detail"), "")
        self.assertEqual(self.focus("aria-label"), "Mitte, B: 2, holds")
        page.press(Keys.HOME)
        self.assertEqual(self.focus("aria-label"), "Constituency Mitte, holds")

    def drop(self, name, text=""):
        """Drops a file, and waits until it is shown."""
        self.page.run("""
            const data = new DataTransfer();
            data.items.add(new File([arguments[1]], arguments[0]));
            document.body.dataset.shown = '';
            document.querySelector('.drop').dispatchEvent(new DragEvent('drop', { dataTransfer: data, bubbles: true, cancelable: true }));
        """, name, text)
        self.page.wait(SHOWN)

    def test_files_that_are_dropped_and_can_not_be_read(self):
        """No sheet stays green when the browser gives no bytes of a file, for example of a folder; once that is removed the one before is
        back."""
        page = self.page.choose(("setup.toml", SETUP), ("held.csv", ROWS))
        self.drop("a sheet", EXAMPLE)
        self.bar_is("right", "✓ Right")
        page.run("""
            const fails = () => ({ arrayBuffer: () => Promise.reject(new DOMException('a folder', 'NotReadableError')) });
            Object.defineProperty(File.prototype, 'slice', { value: fails });
        """)
        self.drop("night")
        self.bar_is("damaged", "! This file can’t be read: open it again")
        self.assertEqual(page.seen(".had .sheet .file", ".had .before .file"), [["night"], ["a sheet"]])
        self.assertIn("It did not run: the browser can’t read a file.", page.text("#proved"))
        page.click(".had .sheet button")
        page.wait("return document.body.dataset.state === 'right'")
        for name, kind in (("other.csv", "Returns"), ("other.toml", "Set-up")):
            self.drop(name)
            self.assertEqual(page.bar(), ("right", "unsure"))
            self.assertIn(f"! {kind} not understood", page.text("#ticks"))

    def test_what_was_given_last_wins(self):
        """A reading that began earlier and ends later takes no place of what was given after it."""
        page = self.page
        page.run("""
            const first = Blob.prototype.arrayBuffer;
            Blob.prototype.arrayBuffer = function slow() {
              Blob.prototype.arrayBuffer = first;
              return new Promise((is) => { window.go = () => is(first.call(this)); });
            };
        """)
        page.give(("wrong.txt", WRONG))
        page.choose(("sheet.txt", EXAMPLE))
        page.run("document.body.dataset.shown = ''; window.go()")
        page.wait(SHOWN)
        self.assertEqual(page.bar()[0], "right")
        self.assertEqual(page.seen(".had .sheet .file", ".had .before .file"), [["sheet.txt"], ["wrong.txt"]])

    def test_the_focus_stays(self):
        """All is made anew, and what had the focus has it."""
        page = self.page.choose(("other.txt", WRONG)).choose(("sheet.txt", EXAMPLE))
        for css in ("#pick", "#languages button[lang=en]", "#files > p button", "#seats tbody td button"):
            page.run("document.querySelector(arguments[0]).focus(); show()", css)
            self.assertTrue(page.run("return document.activeElement.matches(arguments[0])", css), css)
        page.run("find('files').querySelector('details').open = true; find('take').focus(); show()")
        self.assertEqual(page.driver.switch_to.active_element.text, "Or paste a text")

    def test_tables_and_other_parts_have_their_meaning(self):
        page = self.page.choose(("one", EXAMPLE)).choose(("two", changed(EXAMPLE, "provisional 9", "provisional 10")))
        self.assertEqual(page.texts("#seats thead th:not([scope=col]), #seats tbody th:not([scope=row])"), [])
        for css, name in (("#seats", "Seats by constituency and group"), ("#pick", "Choose files"), ("#parts", "Checks"),
                          ("#changes table", "What changed"), (".arc", "The parliament: 10 seats, from left to right by group")):
            # What is far out of sight is not drawn, and has no name yet.
            self.driver.execute_async_script("""
                document.querySelector(arguments[0]).scrollIntoView();
                const draw = (times) => (times > 0 ? requestAnimationFrame(() => draw(times - 1)) : arguments[1]());
                draw(3);
            """, css)
            self.assertEqual(page.one(css).accessible_name, name)
        self.assertEqual((page.one("#seats").aria_role, page.one("#verdict").aria_role), ("table", "status"))

    def test_the_empty_page_in_both_languages(self):
        """It names what is published."""
        page = self.page
        self.assertIn("The proved check is that of the program, zhcount check", page.text("#opinion"))
        for language, choose, names in (
                ("de", "Wählen Sie das Resultatblatt. Fügen Sie, wenn vorhanden, die Grunddaten und die Meldungen hinzu.",
                 ["Resultatblatt", "Grunddaten", "Meldungen"]),
                ("en", "Choose the sheet. If you have them, add the set-up file and the file of returns.",
                 ["Sheet", "Set-up file", "File of returns"])):
            page.speak(language)
            self.assertEqual(page.seen("#choose", ".drop dt"), [[choose], names])
            self.assertEqual((page.run("return document.documentElement.lang"), self.focus("lang")), (language, language))

    def test_the_largest_sheet(self):
        """What it calls itself stays in sight."""
        page = self.page.show(*LARGEST.files())
        self.holds()
        self.assertLess(page.run("return document.querySelectorAll('*').length"), 10 * 32 * 32)
        page.run("window.scrollTo(0, document.body.scrollHeight)")
        self.assertIn(page.run("return Math.floor(find('kind').getBoundingClientRect().top)"), range(60))


class German(Case):
    language = "de-CH"

    def test_the_browser_chooses_the_language(self):
        self.assertEqual(self.driver.title, "Ein veröffentlichtes Resultatblatt prüfen")
        self.plays("in German")

    def test_each_thing_has_one_word(self):
        """Those of the card for a desk are the same, and no other (test_card.py)."""
        words = self.page.run("return Object.values(WORDS).map(([, german]) => german)")
        self.assertGreater(len(words), 200)
        for one in words:
            self.assertNotRegex(one, OTHER_WORDS)
