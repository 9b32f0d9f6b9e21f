"""Clicks through a closure and a release on the page of examples/desk, over WebDriver: see browser.sh."""

import base64
import json
import os
import re
import signal
import socket
import subprocess
import sys
import tempfile
import time
import urllib.request
from pathlib import Path

ROOT = Path(__file__).resolve().parent.parent
SECONDS = 60  # no step takes so long
ENTER, TAB = "\ue007", "\ue004"
STATUS = "return document.getElementById('status').textContent"
SECTIONS = "return document.getElementById('sections').textContent"
ANSWER = "return document.getElementById('answer').textContent"


class Browser:
    """A headless Chromium, by the calls of WebDriver that are needed here."""

    def __init__(self, width, height, scale):
        with socket.socket() as free:
            free.bind(("127.0.0.1", 0))
            port = free.getsockname()[1]
        self.driver = subprocess.Popen(["chromedriver", f"--port={port}", "--silent"], stdout=subprocess.DEVNULL)
        self.at = f"http://127.0.0.1:{port}"
        wait_for("chromedriver", lambda: self.call("GET", "/status")["ready"])
        args = ["--headless=new", "--no-sandbox", "--disable-gpu", "--disable-dev-shm-usage", "--hide-scrollbars",
                f"--window-size={width},{height}", f"--force-device-scale-factor={scale}"]
        wanted = {"capabilities": {"alwaysMatch": {"goog:chromeOptions": {"args": args}}}}
        self.at += "/session/" + self.call("POST", "/session", wanted)["sessionId"]

    def call(self, method, path, body=None):
        data = None if body is None else json.dumps(body).encode()
        asked = urllib.request.Request(self.at + path, data, {"Content-Type": "application/json"}, method=method)
        with urllib.request.urlopen(asked, timeout=SECONDS) as answer:
            return json.load(answer)["value"]

    def run(self, script):
        return self.call("POST", "/execute/sync", {"script": script, "args": []})

    def find(self, selector):
        found = self.call("POST", "/element", {"using": "css selector", "value": selector})
        return "/element/" + next(iter(found.values()))

    def click(self, selector):
        """Clicks on something, once it is there: the page may be drawing that part anew."""
        wait_for(selector, lambda: self.call("POST", self.find(selector) + "/click", {}) is None)

    def press(self, *keys):
        """Types keys to whatever has the focus."""
        actions = [{"type": kind, "value": key} for key in "".join(keys) for kind in ("keyDown", "keyUp")]
        self.call("POST", "/actions", {"actions": [{"type": "key", "id": "keyboard", "actions": actions}]})

    def screenshot(self, file):
        file.write_bytes(base64.b64decode(self.call("GET", "/screenshot")))

    def close(self):
        try:
            self.call("DELETE", "")
        finally:
            self.driver.terminate()
            self.driver.wait()


class Checks:
    """What came out right and wrong."""

    def __init__(self):
        self.right = self.count = 0

    def check(self, name, is_right):
        self.count += 1
        self.right += bool(is_right)
        if not is_right:
            print(f"browser: {name}: not so", flush=True)

    def until(self, name, is_right):
        try:
            wait_for(name, is_right)
            self.check(name, True)
        except TimeoutError:
            self.check(name, False)


def wait_for(name, is_right):
    """Waits until something is so."""
    end = time.monotonic() + SECONDS
    while time.monotonic() < end:
        try:
            if is_right():
                return
        except OSError:
            pass
        time.sleep(0.1)
    raise TimeoutError(name)


def focus_on(browser, script):
    """Goes on by Tab until the focus is where a script says."""
    for _ in range(60):
        if browser.run(f"const it = document.activeElement; return {script}"):
            return True
        browser.press(TAB)
    return False


class Desk:
    """A desk on a port of its own, which is started again on the same port and log."""

    def __init__(self, log):
        self.log, self.port = log, 0
        self.start()

    def start(self):
        words = [sys.executable, "-B", ROOT / "examples/desk/desk.py", "--log", self.log, "--port", str(self.port), "--every", "1"]
        self.process = subprocess.Popen(words, stdout=subprocess.PIPE, text=True)
        self.address = self.process.stdout.readline().split()[1]
        self.port = int(re.search(r":(\d+)/", self.address)[1])

    def kill_program(self):
        """Kills its `dispatch live`."""
        for process in Path(f"/proc/{self.process.pid}/task").glob("*/children"):
            for child in process.read_text().split():
                if b"\0live\0" in Path(f"/proc/{child}/cmdline").read_bytes():
                    os.kill(int(child), signal.SIGKILL)

    def end(self, how):
        self.process.send_signal(how)
        self.process.communicate()


def close_by_keyboard(browser, checks):
    """Closes km 15.2 to 16.85 of line 0 without the mouse."""
    checks.check("Tab reaches the form", focus_on(browser, "it.name === 'line' && it.form.dataset.do === 'close'"))
    browser.press(TAB, "15.200", TAB, "16.850", ENTER)
    checks.until("the closure is read back", lambda: browser.run("return document.getElementById('confirm').open"))
    words = browser.run("return document.getElementById('words').textContent")
    checks.check("in words", words == 'Close line 0 "Lindau - Eschen" from km 15.200 to km 16.850?')
    checks.check("the focus is on No", browser.run("return document.activeElement.value") == "no")


def a_day(browser, checks, desk, folder):
    close_by_keyboard(browser, checks)
    browser.screenshot(folder / "confirm.png")
    browser.press(TAB, ENTER)
    checks.until("it is accepted", lambda: "was accepted" in browser.run(ANSWER))
    desk.kill_program()
    checks.until("the program was killed and started again", lambda: "Restarts of the program: 1, the last since signal 9" in browser.run(STATUS))
    checks.until("trains were told and answered", lambda: re.search(
        r"Stop 1: .*Told to [2-9] trains, answered by [2-9]", browser.run(SECTIONS)))
    checks.until("the picture shows the stop", lambda: browser.run(
        "return [...document.querySelectorAll('#picture title')].some(it => it.textContent.startsWith('stop 1: line 0'))"))
    browser.run("window.scrollTo(0, 0); document.activeElement.blur()")
    browser.screenshot(folder / "desk.png")
    browser.run("document.documentElement.style.filter = 'grayscale(1)'")
    browser.screenshot(folder / "grey.png")
    browser.run("document.documentElement.style.filter = ''")
    checks.until("an alarm is shown", lambda: browser.run("return document.querySelector('#alarms li')?.textContent"))
    browser.run("window.scrollTo(0, 0)")
    browser.screenshot(folder / "alarm.png")
    browser.run("document.getElementById('sections').scrollIntoView()")
    browser.screenshot(folder / "below.png")
    desk.end(signal.SIGKILL)
    checks.until("the page says that the desk is gone", lambda: "No connection to the desk" in browser.run(STATUS))
    browser.screenshot(folder / "stale.png")
    desk.start()
    checks.until("it goes on where it was", lambda: "Connected" in browser.run(STATUS) and "Stop 1: " in browser.run(SECTIONS))
    browser.click("#sections button")
    checks.until("the old token is refused in words", lambda: "open the address that the desk printed" in browser.run(ANSWER))
    browser.run(f"location.hash = '{desk.address.partition('#')[2]}'")
    browser.click("#sections button")
    checks.until("the release is read back", lambda: browser.run("return document.getElementById('confirm').open"))
    browser.click("#confirm button[value=yes]")
    checks.until("the stop is released", lambda: "Stops: 0 active" in browser.run(SECTIONS))
    checks.until("the release is acknowledged", lambda: "revoked" not in browser.run(SECTIONS))
    browser.click("form[data-do=restrict] button")
    checks.check("an empty form is not given", not browser.run("return document.getElementById('confirm').open"))
    fault = browser.run("return performance.getEntriesByType('resource').filter(it => !it.name.startsWith(location.origin)).length")
    checks.check("nothing is fetched from elsewhere", fault == 0)


def main():
    folder = Path(sys.argv[1])
    folder.mkdir(parents=True, exist_ok=True)
    checks = Checks()
    with tempfile.TemporaryDirectory() as scratch:
        desk, browsers = Desk(f"{scratch}/day.log"), []
        try:
            for width, height, scale in ((1120, 1360, 1), (1280, 1800, 2)):
                browsers.append(Browser(width // scale, height // scale, scale))
                browsers[-1].call("POST", "/url", {"url": desk.address})
                checks.until("the page shows the trains", lambda: "Train 1071" in browsers[-1].run(SECTIONS))
            a_day(browsers[0], checks, desk, folder)
            browsers[1].screenshot(folder / "large.png")
            wide = "return document.documentElement.scrollWidth <= document.documentElement.clientWidth"
            checks.check("at 200 % the page does not scroll sideways", browsers[1].run(wide))
            browsers[1].run("document.getElementById('give').scrollIntoView()")
            browsers[1].screenshot(folder / "large_form.png")
        finally:
            for browser in browsers:
                browser.close()
            desk.end(signal.SIGTERM)
    print(f"browser: {checks.right} of {checks.count} checks came out right; the screenshots are in {folder}")
    return 0 if checks.right == checks.count else 1


if __name__ == "__main__":
    sys.exit(main())
