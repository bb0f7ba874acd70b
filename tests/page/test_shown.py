"""What the page says of the proved check, and where that does not run."""
import base64
import pathlib
import re
import subprocess

import browser
from case import EXAMPLE, OTHERS, ROWS, SETUP, WRONG, Case, changed
from places import TOP
from seals import SEAL


class Shown(Case):
    def is_now(self, state, end):
        self.assertEqual(self.page.state(), state)
        self.assertTrue(self.page.text("#proved pre").endswith(end), self.page.text("#proved pre"))

    def test_the_verdict_is_that_of_this_sheet(self):
        self.assertEqual(self.page.text("#proved"), "")
        page = self.page.choose(("sheet.txt", EXAMPLE))
        self.assertEqual((page.state(), page.text("#proved p")), ("unsure", "It did not run: it needs the set-up."))
        for name, text, state in (("setup.toml", SETUP, "unsure"), ("held.csv", ROWS, "right"), ("sheet.txt", WRONG, "wrong"),
                                  ("sheet.txt", EXAMPLE, "right"), ("held.csv", ROWS.replace("525", "526"), "mismatch"),
                                  ("held.csv", ROWS, "right"), ("setup.toml", SETUP.replace("5000", "5001"), "mismatch")):
            page.choose((name, text))
            end = {"right": "no other seats follow from these votes", "unsure": "these votes; that they were returned is not checked"}
            self.is_now(state, end.get(state, "sheet wrong"))

    def test_an_answer_that_comes_late_is_not_shown(self):
        """While it runs nothing is green."""
        page = self.page
        page.run("""
            const first = asked;
            window.late = [];
            asked = (texts) => new Promise((is) => { first(texts).then((answer) => window.late.push(() => is(answer))); });
        """)
        page.give(("setup.toml", SETUP), ("sheet.txt", EXAMPLE), ("held.csv", ROWS))
        page.wait("return window.late.length === 1")
        self.assertEqual((page.run("return document.body.dataset.proved"), *page.bar()), ("runs", "right", "unsure"))
        page.give(("wrong.txt", WRONG))
        page.wait("return window.late.length === 2")
        page.run("window.late[0]()")
        self.assertEqual((page.run("return document.body.dataset.proved"), page.state()), ("runs", "wrong"))
        page.run("window.late[1]()")
        page.wait("return document.body.dataset.proved === 'wrong'")
        self.is_now("wrong", "sheet wrong")

    def test_what_it_refuses(self):
        for files, said, why in (((EXAMPLE, SETUP.replace("house = 10", "house = 401")), "setup range house", "setup range, house"),
                                 ((EXAMPLE, SETUP, ROWS.replace("1,3,1,175", "1,2,1,175")), "held twice", "held twice")):
            page = self.page.sheet(*files)
            self.is_now("unsure", said)
            self.assertTrue(page.text("#proved p").startswith("It did not run. It reports"))
            self.assertIn(f"The proved check did not run: {why}", page.text("#ticks"))
        page.sheet(EXAMPLE, SETUP, ROWS + "\n" * 1_048_577)
        self.assertEqual((page.state(), page.text("#proved p")), ("unsure", "It did not run: the returns are too long."))

    def test_which_page_this_is(self):
        """Its foot says which version it is, and how that is found out: by a command, with the sum in README. It shows no sum itself."""
        foot = self.page.text("#which")
        self.assertTrue(foot.startswith(f"Is this the real page of zhcount {(TOP / 'VERSION').read_text().strip()}?"), foot)
        self.assertIn("Compute the SHA-256 of this file, and compare it with one that you did not get together with this page", foot)
        command = re.search(r"Linux: (\w+ \S+)", foot)[1]
        printed = subprocess.run(command.split(), cwd=TOP / "page", stdout=subprocess.PIPE, text=True, check=True).stdout
        self.assertIn(f"`{printed.split()[0]}`", (TOP / "README.md").read_text())
        self.assertEqual(re.findall("[0-9a-f]{8,}", self.page.text("body")), [])

    def another(self, text):
        """A page with this text."""
        path = pathlib.Path(self.page.room.name, "other.html")
        path.write_text(text)
        return browser.Page(self.driver, path)

    def fails_with(self, why, page=None, before=""):
        """The proved check does not run: the page says so, and is never green."""
        page = (page or self.page).sheet(EXAMPLE, *OTHERS, before=before)
        self.bar_is("unsure", "! Not fully checked: right by one check of two")
        self.assertRegex(page.text("#ticks"), "The proved check did not run: " + why)
        self.assertRegex(page.text("#proved p"), "^It did not run: " + why)
        self.assertEqual(page.choose(("sheet.txt", WRONG)).state(), "wrong")

    def test_the_module_is_taken_out_cut_another_or_forbidden(self):
        module, text = SEAL.module_in(self.path), self.path.read_text()
        script = re.search("<script>(.*)</script>", text, re.S)[1]
        for why, other in (("its module is missing from this page", b""),
                           *((".", it) for it in (module[:-1], module[:1000], b"\0asm\1\0\0\0", b"no module"))):
            changed_script = SEAL.MODULE.sub(f"const MODULE = '{base64.b64encode(other).decode()}';", script)
            hashed = (SEAL.hashed(it) for it in (script, changed_script))
            self.fails_with(why, self.another(text.replace(script, changed_script).replace(*hashed)))
        self.fails_with(".", self.another(changed(text, " 'wasm-unsafe-eval'", "")))

    def test_what_the_browser_has_not(self):
        for why, before in (("this browser has no WebAssembly", "delete window.WebAssembly"),
                            ("there was too little memory", "asked = async () => ({ status: 4, text: new Uint8Array(0) })"),
                            ("there was too little memory", "asked = async () => { throw new RangeError('memory'); }"),
                            ("it took longer than 60 seconds", """
                                window.Worker = class { postMessage() {} terminate() {} };
                                const first = setTimeout;
                                window.setTimeout = (call, time) => first(call, time === 60000 ? 0 : time);
                            """)):
            self.fails_with(why, before=before)

    def test_without_a_worker_it_runs_in_the_page(self):
        self.another(changed(self.path.read_text(), "worker-src blob:", "worker-src 'none'")).sheet(EXAMPLE, *OTHERS)
        self.bar_is("right", "✓ Right")
        self.page.sheet(WRONG, SETUP, before="Worker = class { constructor() { throw new Error('none'); } }")
        self.is_now("wrong", "sheet wrong")

    def test_the_page_itself_fails(self):
        """No verdict of the files before stays."""
        for part in ("judge", "showBar", "seatsTable"):
            page = self.page.sheet(EXAMPLE, *OTHERS)
            self.assertEqual(page.state(), "right")
            page.run(f"{part} = () => {{ throw new Error('a fault') }}")
            page.choose(("sheet.txt", WRONG))
            self.bar_is("unsure", "! This page failed: no verdict")
            self.assertEqual(page.bar(), ("failed", "unsure"))
            self.assertEqual(page.text("#why"), "Nothing that it said of these files counts: Error: a fault")
            self.assertEqual(page.texts("#ticks li, #shown section, #signatures p"), [])
