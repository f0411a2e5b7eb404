"""What all visits share: the page that is looked at, and what a person does with it."""
import os
import pathlib

import browsers

ROOT = pathlib.Path(__file__).resolve().parent.parent.parent
# The page that the variable BPFTAP_PAGE names, the one that was made here, or the released one.
NAMED = [pathlib.Path(path).resolve() for path in [os.environ.get("BPFTAP_PAGE")] if path]
PAGE = next((path for path in [*NAMED, ROOT / "out" / "page" / "bpftap.html", ROOT / "release" / "bpftap.html"] if path.is_file()), None)

# A loop of the same work at each call, and how many milliseconds it takes if nothing else runs: so a busy machine is not taken for a slow page.
SPIN = """
    const spin = () => {
      const begun = performance.now();
      let sum = 0;
      for (let n = 0; n < 1e7; n++) sum = (Math.imul(sum, 31) + n) | 0;
      return performance.now() - begun + (sum === 1 ? 1 : 0);
    };"""
IDLE = 15


class Visit:
    """A page that is open in a browser, and the scene that it is looked at for."""

    def __init__(self, scene, browser):
        self.scene, self.browser = scene, browser
        self.run, self.wait, self.press = browser.run, browser.wait, browser.press

    def open(self, link=""):
        self.browser.open(f"file://{PAGE}{link}")

    def text(self, place):
        return self.run("return document.getElementById(arguments[0]).textContent", place)

    def wait_for(self, place, text):
        self.wait("return document.getElementById(arguments[0]).textContent.includes(arguments[1])", place, text)

    def check(self, what, seen, wanted):
        self.scene.check(f"{self.browser.name}: {what}", seen, wanted)

    def check_has(self, what, place, text):
        """Waits until a part of the page has a text."""
        try:
            self.wait_for(place, text)
        except browsers.BrowserError:
            pass
        self.check(what, text in self.text(place) or self.text(place), True)

    def parts(self, place):
        """The texts of what is in a part of the page, one after the other."""
        return self.run("return [...document.getElementById(arguments[0]).children].map((part) => part.textContent)", place)

    def filter(self, text):
        self.browser.type_into("filter", text)

    def click(self, place):
        self.run("document.getElementById(arguments[0]).click()", place)
