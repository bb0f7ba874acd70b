"""Firefox without a window, to which selenium speaks by Firefox's own Marionette: Debian has no geckodriver."""
import itertools
import json
import pathlib
import shutil
import socket
import subprocess
import tempfile

from selenium import webdriver
from selenium.webdriver.remote.file_detector import UselessFileDetector
from selenium.webdriver.support.ui import WebDriverWait

from browser import PATIENCE

FIREFOX = "/usr/bin/firefox-esr"
PREFS = {
    "marionette.port": 0, "app.update.enabled": False, "browser.shell.checkDefaultBrowser": False,
    "network.captive-portal-service.enabled": False, "datareporting.policy.dataSubmissionEnabled": False,
    "toolkit.telemetry.reportingpolicy.firstRun": False,
}
# Commands of selenium that have other names in Marionette.
COMMANDS = {"quit": "Marionette:Quit", "get": "WebDriver:Navigate", "sendKeysToElement": "WebDriver:ElementSendKeys",
            "clickElement": "WebDriver:ElementClick", "isElementDisplayed": "WebDriver:IsElementDisplayed",
            "w3cExecuteScript": "WebDriver:ExecuteScript", "w3cExecuteScriptAsync": "WebDriver:ExecuteAsyncScript"}


class Marionette:
    """A Firefox that has opened nothing, and takes commands of selenium."""

    def __init__(self):
        self.profile = pathlib.Path(tempfile.mkdtemp())
        prefs = [f"user_pref({json.dumps(name)}, {json.dumps(value)});\n" for name, value in PREFS.items()]
        (self.profile / "user.js").write_text("".join(prefs))
        self.process = subprocess.Popen(
            [FIREFOX, "--headless", "--marionette", "--no-remote", "--profile", str(self.profile)],
            stdout=subprocess.DEVNULL, stderr=subprocess.DEVNULL, env={"HOME": str(self.profile), "MOZ_HEADLESS": "1"})
        port = WebDriverWait(self.process, PATIENCE, poll_frequency=0.1).until(self.port)
        self.stream = socket.create_connection(("127.0.0.1", port), PATIENCE).makefile("rwb")
        self.number = 0
        self.message()

    def port(self, process):
        """The port that it listens on, once it has written it into its profile."""
        assert process.poll() is None, "Firefox did not start"
        file = self.profile / "MarionetteActivePort"
        return file.exists() and int(file.read_text().strip() or 0)

    def message(self):
        """The next message: its length in digits, a colon, and JSON."""
        digits = itertools.takewhile(bytes.isdigit, iter(lambda: self.stream.read(1), b""))
        return json.loads(self.stream.read(int(b"".join(digits))))

    def execute(self, command, parameters):
        """What the browser answers to a command. A script, which has arguments, runs among those of the page."""
        self.number += 1
        name = COMMANDS.get(command, f"WebDriver:{command[0].upper()}{command[1:]}")
        given = {key: it for key, it in parameters.items() if key != "sessionId"}
        given.update({"newSandbox": False, "sandbox": None} if "args" in given else {})
        data = json.dumps([0, self.number, name, given]).encode()
        self.stream.write(b"%d:%s" % (len(data), data))
        self.stream.flush()
        _, _, error, result = self.message()
        if error:
            raise AssertionError(f"{name}: {error['error']}: {error['message']}")
        return result if isinstance(result, dict) else {"value": result}

    def close(self):
        self.stream.close()
        self.process.terminate()
        self.process.wait()
        shutil.rmtree(self.profile, ignore_errors=True)


def started():
    driver = webdriver.Remote(Marionette(), file_detector=UselessFileDetector())
    driver.set_script_timeout(PATIENCE)
    driver.set_page_load_timeout(PATIENCE)
    return driver
