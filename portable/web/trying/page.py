"""Gives the tests the page in a browser."""
import json
import os
import re
import time

from .chromium import Fault

TOP = os.path.dirname(os.path.dirname(os.path.dirname(os.path.dirname(os.path.abspath(__file__)))))
DATA = os.path.join(TOP, "crates", "pcapfile", "data")

# Functions for the tests below: they find elements in sight, by a selector or by their text.
HELPERS = """
window.all = (selector) => [...document.querySelectorAll(selector)];
window.inSight = (selector) => all(selector).filter((it) => it.offsetParent);
window.withText = (selector, text) => inSight(selector).find((it) => it.textContent === text);
window.field = (label) => inSight('label').find((it) => it.textContent.startsWith(label)).querySelector('input, select');
window.job = () => inSight('.job')[0];
window.isBusy = () => inSight('.activity').length > 0;
window.textsOf = (row) => [...row.children].map((it) => it.textContent);
window.isChosen = "[aria-selected=true]";
"""


# Chromium drops a download without a message after ten within a second, so the tests leave this many seconds between two of them.
PAUSE = 0.25


class Page:
    """The page in a browser, for a user who knows the texts of its buttons."""

    def __init__(self, browser, path):
        self.browser = browser
        self.next_download = 0
        browser.open(path)
        browser.look(1280, 860)
        self.value(f"(() => {{ {HELPERS} }})()")

    def give(self, *paths):
        """Opens files, and waits until each was read or refused."""
        before = self.value("all('.capture').length")
        self.browser.give(*paths)
        self.until(f"all('.capture').length === {before + len(paths)} && !all('.dot.waiting').length")

    def value(self, expression):
        return self.browser.value(expression)

    def until(self, expression, seconds=120):
        return self.browser.until(expression, seconds)

    def names(self):
        return self.texts(".capture-name")

    def select(self, name):
        self.value(f"withText('.capture-name', {json.dumps(name)}).closest('.capture').click()")

    def tab(self, title):
        self.value(f"withText('[role=tab]', {json.dumps(title)}).click()")

    def press(self, text):
        self.browser.press(text)

    def empty(self):
        """Removes all captures."""
        self.value("all('.remove').forEach((it) => it.click())")

    def set(self, label, value):
        """Gives a field of the form in sight a value."""
        change = "it.value = value; it.dispatchEvent(new Event('change'))"
        self.value(f"(() => {{ const it = field({json.dumps(label)}), value = {json.dumps(value)}; {change}; }})()")

    def texts(self, selector):
        return self.value(f"inSight({json.dumps(selector)}).map((it) => it.textContent)")

    def figures(self):
        """Returns what the figures in sight show, by their names."""
        parts = "[...it.querySelector('dd').childNodes].map((part) => part.textContent)"
        pairs = f"inSight('.figure, .facts-list > div').map((it) => [it.querySelector('dt').textContent, {parts}])"
        return self.value(f"Object.fromEntries({pairs})")

    def rows(self):
        """Returns the texts of the rows of packets in sight."""
        return self.value("inSight('.packet-window .packet-row').map(textsOf)")

    def job(self):
        """Waits for the newest file that the page makes, and returns its messages."""
        self.until("Boolean(job()) && /done|failed/.test(job().className)")
        return self.value("[...job().querySelectorAll('.messages li')].map((it) => it.textContent)")

    def made(self):
        """Returns what the newest job made, as it is downloaded: bytes by name."""
        links = "[...job().querySelectorAll('a[download]')].filter((it) => it.textContent === 'Download')"
        names = self.value(f"{links}.map((it) => it.download)")
        return {name: self.download(f"{links}[{at}]", name) for at, name in enumerate(names)}

    def download(self, link, name):
        """Presses a link and returns the bytes of the download. A browser replaces characters that no file's name may have."""
        folder = self.browser.downloads
        for old in os.listdir(folder):
            os.remove(os.path.join(folder, old))
        time.sleep(max(0, self.next_download - time.monotonic()))
        self.next_download = time.monotonic() + PAUSE
        self.value(f"{link}.click()")
        end = time.monotonic() + 30
        while len(found := os.listdir(folder)) != 1 or found[0].endswith(".crdownload") or found[0].startswith("."):
            if time.monotonic() > end:
                raise Fault(f"{name} was not downloaded, but {found}")
            time.sleep(0.02)
        with open(os.path.join(folder, found[0]), "rb") as file:
            return file.read()

    def table(self, button, name):
        """Presses a button of the tables, and returns what the page downloads."""
        self.press(button)
        link = f"inSight('a[download]').find((it) => it.download === {json.dumps(name)})"
        self.until(f"Boolean({link})")
        return self.download(link, name)


def grouped(number):
    return f"{number:,}"


def verdict_text(check):
    return re.sub(r"\d{5,}", lambda it: grouped(int(it[0])), check)
