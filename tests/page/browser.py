"""A headless browser on the page, driven as somebody would drive it: files are chosen, texts pasted, keys pressed."""
import contextlib
import os
import pathlib
import tempfile

from selenium import webdriver
from selenium.common.exceptions import WebDriverException
from selenium.webdriver.chrome.service import Service
from selenium.webdriver.common.by import By
from selenium.webdriver.support.ui import WebDriverWait

from places import TOP

PAGE = pathlib.Path(os.environ.get("PAGE") or TOP / "page/index.html")
# No test is about time: a machine can be slow or have other work. After this many seconds nothing comes any more.
PATIENCE = 600
STARTS = 5
NAMES = ("sheet.txt", "setup.toml", "held.csv")
# What was given is shown, and the proved check has answered.
SHOWN = "return document.body.dataset.shown !== '' && document.body.dataset.proved !== 'runs'"


def started(language="en-GB", size=(1280, 900)):
    """A browser that has opened nothing. Its log has each request that it makes. A start that fails is tried again."""
    options = webdriver.ChromeOptions()
    for argument in ("headless=new", "no-sandbox", "disable-gpu", "disable-dev-shm-usage", "no-first-run",
                     "disable-background-networking", "disable-component-update", "hide-scrollbars",
                     f"lang={language}", f"window-size={size[0]},{size[1]}"):
        options.add_argument("--" + argument)
    options.add_experimental_option("prefs", {"intl.accept_languages": language})
    options.set_capability("goog:loggingPrefs", {"performance": "ALL", "browser": "ALL"})
    options.timeouts = {"script": 1000 * PATIENCE, "pageLoad": 1000 * PATIENCE}
    for _ in range(STARTS - 1):
        with contextlib.suppress(WebDriverException):
            return webdriver.Chrome(service=Service("/usr/bin/chromedriver"), options=options)
    return webdriver.Chrome(service=Service("/usr/bin/chromedriver"), options=options)


class Page:
    """The page in a browser, with the files that it was given."""

    def __init__(self, driver, path=PAGE):
        self.driver, self.path, self.room = driver, path, tempfile.TemporaryDirectory()
        self.open()

    def open(self):
        """Opens the page anew, without any files."""
        self.driver.get(self.path.as_uri())
        return self

    def give(self, *files):
        """Chooses files, (name, content) each, and waits for nothing."""
        paths = [pathlib.Path(self.room.name, name) for name, _ in files]
        for path, (_, content) in zip(paths, files):
            path.write_bytes(content if isinstance(content, bytes) else content.encode())
        self.one("#pick").send_keys("\n".join(map(str, paths)))

    def choose(self, *files):
        """Chooses files, and waits until they are shown, even if they were shown before."""
        self.run("document.body.dataset.shown = ''")
        self.give(*files)
        self.wait(SHOWN)
        return self

    def sheet(self, *files, before=""):
        """The page anew, where after a script a sheet is chosen and perhaps a set-up and returns, None for one that is not."""
        self.open().run(before)
        return self.choose(*(file for file in zip(NAMES, files) if file[1] is not None))

    def states(self, *cases):
        """What the page's own check says of the files of each case, which are as those of `sheet`. They are shown one after the other,
        and neither chosen nor handed to the proved check, which takes longer. The last ones stay."""
        return self.run("""
            asked = () => new Promise(() => {});
            const bytes = (it) => (typeof it === 'string' ? new TextEncoder().encode(it) : Uint8Array.from(it));
            return arguments[0].map((given) => {
              Object.assign(files, { sheet: null, before: null, setup: null, held: null });
              takeFiles(given.map(([name, it]) => opened(name, bytes(it))));
              return document.body.dataset.own;
            });
        """, [[(name, list(it) if isinstance(it, bytes) else it) for name, it in zip(NAMES, files) if it is not None] for files in cases])

    def show(self, *files):
        """The page with these files, by its own check alone."""
        self.states(files)
        return self

    def proved(self, state, why=""):
        """The page as it is where the proved check says this of the files that are open."""
        self.run("""
            const [state, why] = arguments;
            Object.assign(proved, { state, why, text: ['right', 'wrong', 'refused'].includes(state) ? new Uint8Array() : null });
            showBar(judge(), proved);
            showProved(judge());
        """, state, why)
        return self

    def run(self, script, *arguments):
        """What a script in the page returns."""
        return self.driver.execute_script(script, *arguments)

    def wait(self, condition):
        """Waits until this script returns true."""
        WebDriverWait(self.driver, PATIENCE, poll_frequency=0.02).until(lambda driver: self.run(condition))

    def one(self, css):
        return self.driver.find_element(By.CSS_SELECTOR, css)

    def click(self, css):
        self.one(css).click()

    def cell(self, row, column):
        """Opens the panel of a cell of the table of seats; row 0 and column 0 are the names."""
        self.run("document.getElementById('seats').rows[arguments[0]].cells[arguments[1]].firstChild.click()", row, column)
        return self

    def press(self, *keys):
        webdriver.ActionChains(self.driver).send_keys(*keys).perform()

    def speak(self, language):
        """Has the page in this language, 'en' or 'de'."""
        self.click(f"#languages button[lang={language}]")

    def seen(self, *places):
        """The texts that are seen at each of these places, without hyphens that part a word, and with one blank where there are some, or a
        new line. A fault that is far below has no innerText yet, nor has what is drawn."""
        return self.run("""
            const said = (one) => (one.innerText || one.textContent).replaceAll('\u00ad', '').replace(/\\s+/gu, ' ').trim();
            return arguments[0].map((css) => [...document.querySelectorAll(css)].map((one) => (one.checkVisibility() ? said(one) : '')));
        """, places)

    def texts(self, css):
        return self.seen(css)[0]

    def text(self, css):
        """The text that is seen there first; '' where there is none."""
        return (self.texts(css) or [""])[0]

    def bar(self):
        """What the page's own check says, 'right', 'wrong' or 'refused', or 'none' without a sheet; and the colour of the bar."""
        return tuple(self.run("return [document.body.dataset.own, document.body.dataset.state]"))

    def state(self):
        return self.bar()[1]
