"""A headless Chromium, and what a page of `python3 -m gsnap page` shows in it."""
import json
import os
import time
from pathlib import Path

from program import PATIENCE, end_without

try:
    from selenium import webdriver
    from selenium.webdriver.chrome.service import Service
    from selenium.webdriver.common.action_chains import ActionChains
    from selenium.webdriver.common.by import By
except ImportError:
    end_without("there is no module selenium of Debian's python3-selenium")

WORDS = [
    "--headless=new",
    "--no-sandbox",
    "--disable-gpu",
    "--disable-dev-shm-usage",
    "--hide-scrollbars",
    "--window-size=1400,1600",
]
CHROMIUM, DRIVER = "/usr/bin/chromium", "/usr/bin/chromedriver"
TICKS = os.sysconf("SC_CLK_TCK")

# Reads all that a page shows.
READ = """
const all = (selector, within = document) => [...within.querySelectorAll(selector)];
const one = (selector) => document.querySelector(selector);
const said = (selector) => one(selector).textContent;
const cell = (it) => it.textContent.replace(/ [▲▼]$/, "");
const cells = (selector) => all(`${selector} tr`).map((row) => all("th, td", row).map(cell));
const ends = (line) => [line.dataset.edge, line.dataset.back].filter(Boolean);
const edges = all(".edge").flatMap((line) => ends(line).map((it) => [it, line.classList[1]]));
return {
  title: document.title,
  heading: said("#title"),
  version: one("#version").value,
  facts: said("#version-facts"),
  slider: [one("#timeline").getAttribute("aria-valuenow"), one("#timeline").getAttribute("aria-valuemax")],
  tickets: all("[data-ticket]").map((it) => said(`[data-ticket="${it.dataset.ticket}"] title`)),
  edges,
  edgeRows: cells("#changes-table").slice(1),
  vertices: all(".vertex").map((it) => ({
    vertex: Number(it.dataset.vertex),
    entry: it.dataset.entry,
    fill: it.querySelector("circle:not(.outline)").style.fill,
    isMember: it.querySelector(".outline") !== null,
    title: it.querySelector("title").textContent,
    texts: all("text", it).map((text) => text.textContent),
  })),
  legend: all("#legend .swatch").map((it) => [it.style.background, it.nextSibling.textContent.trim()]),
  drawing: said("#drawing"),
  turn: [one("#turn").value, one("#turn").max, said("#turn-count"), one("#turn-tools").hidden],
  run: said("#run-facts"),
  turnFacts: said("#turn-facts"),
  printed: said("#printed"),
  mark: all("#text mark").map((it) => it.textContent),
  text: said("#text"),
  vertexFacts: said("#vertex-facts"),
  rows: cells("#rows"),
  rowsCount: said("#rows-count"),
  greatest: cells("#greatest").slice(1),
  commonest: cells("#commonest").slice(1),
  components: cells("#components").slice(1),
  histogram: cells("#histogram").slice(1),
  charts: all("[data-series]").map((it) => [it.dataset.series, it.querySelector(".facts").textContent]),
  notes: all("#notes li").map((it) => it.textContent),
  chosen: Object.fromEntries(["program", "by", "set", "scale", "vertex"].map((id) => [id, one(`#${id}`).value])),
  hash: location.hash,
  status: said("#status"),
  rowsInAll: all("tr").length,
};
"""


for path in (CHROMIUM, DRIVER):
    if not os.access(path, os.X_OK):
        end_without(f"there is no {path} of Debian's chromium and chromium-driver")


class Browser:
    """A headless Chromium. Files that a page saves go to `folder`."""

    def __init__(self, folder):
        self.folder = Path(folder)
        options = webdriver.ChromeOptions()
        for word in WORDS:
            options.add_argument(word)
        options.set_capability("goog:loggingPrefs", {"browser": "ALL"})
        options.add_experimental_option("prefs", {"download.default_directory": str(folder)})
        options.binary_location = CHROMIUM
        self.driver = webdriver.Chrome(service=Service(DRIVER), options=options)
        self.driver.set_script_timeout(PATIENCE)

    def open(self, path, link=""):
        """Opens a page anew, and returns the processor seconds that this took the browser."""
        self.driver.get("about:blank")
        before = self.seconds()
        self.driver.get(f"{Path(path).resolve().as_uri()}{link}")
        self.wait(lambda: self.run("return document.documentElement.dataset.ready === 'yes'"))
        self.run("return new Promise((done) => requestAnimationFrame(() => setTimeout(done, 0)))")
        return self.seconds() - before

    def run(self, code, *words):
        return self.driver.execute_script(code, *words)

    def command(self, name, **words):
        """Calls a command of the DevTools."""
        return self.driver.execute_cdp_cmd(name, words)

    def shown(self):
        return self.run(READ)

    def find(self, selector):
        return self.driver.find_element(By.CSS_SELECTOR, selector)

    def click(self, selector):
        self.run("document.querySelector(arguments[0]).click()", selector)

    def press(self, *keys):
        """Presses keys, at what has the focus."""
        ActionChains(self.driver).send_keys(*keys).perform()

    def choose(self, selector, value):
        """Chooses in a list, or types into a field, as a user does."""
        code = "const it = document.querySelector(arguments[0]); it.value = arguments[1];"
        self.run(
            code + " for (const name of ['input', 'change']) it.dispatchEvent(new Event(name, {bubbles: true}));",
            selector,
            str(value),
        )

    def click_on(self, selector):
        """Clicks what is seen in the middle of an element."""
        self.run("document.querySelector(arguments[0]).scrollIntoView({block: 'center'})", selector)
        ActionChains(self.driver).move_to_element(self.find(selector)).click().perform()

    def drag(self, selector, dx, dy):
        self.run("document.querySelector(arguments[0]).scrollIntoView({block: 'center'})", selector)
        ActionChains(self.driver).move_to_element(self.find(selector)).click_and_hold().move_by_offset(dx, dy).release().perform()

    def click_at(self, selector, part):
        """Clicks an element at a part of its width from the left."""
        code = (
            "const it = document.querySelector(arguments[0]); const box = it.getBoundingClientRect();"
            "const place = {bubbles: true, clientX: box.left + arguments[1] * box.width, clientY: box.top + 20};"
            "it.dispatchEvent(new MouseEvent('click', place));"
        )
        self.run(code, selector, part)

    def link(self, words):
        """Follows a link within the page."""
        self.run("location.hash = arguments[0]", words)
        self.run("return new Promise((done) => setTimeout(done, 0))")

    def unfold(self):
        """Opens all tables behind charts."""
        self.run("for (const it of document.querySelectorAll('details')) it.open = true")
        self.run("return new Promise((done) => setTimeout(done, 30))")

    def wait(self, is_so, seconds=60):
        """Waits until something is so, and says whether it became so."""
        end = time.monotonic() + seconds
        while time.monotonic() < end:
            if is_so():
                return True
            time.sleep(0.02)
        return False

    def saved(self, name):
        """Returns the text of a file that the page saved."""
        path = self.folder / name
        self.wait(lambda: path.exists() and not list(self.folder.glob("*.crdownload")))
        text = path.read_bytes().decode()
        path.unlink()
        return text

    def complaints(self):
        """Returns the messages on the console, and what was loaded beside the page."""
        loaded = self.run("return performance.getEntriesByType('resource').map((it) => it.name)")
        return [json.dumps(it) for it in self.driver.get_log("browser")] + [it for it in loaded if not it.startswith("blob:")]

    def seconds(self):
        """Returns the processor seconds of all processes of the browser so far."""
        children = {}
        for path in Path("/proc").glob("[0-9]*/stat"):
            try:
                words = path.read_text().rpartition(")")[2].split()
            except OSError:
                continue
            children.setdefault(int(words[1]), []).append((int(path.parent.name), (int(words[11]) + int(words[12])) / TICKS))
        total, parents = 0.0, [self.driver.service.process.pid]
        while parents:
            for number, seconds in children.get(parents.pop(), []):
                total += seconds
                parents.append(number)
        return total

    def close(self):
        self.driver.quit()
