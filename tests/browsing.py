"""A page in a headless Chromium, and its server: what tests/preview asks of them.

The scripts are run in the page.
"""
from __future__ import annotations

import os
import re
import shutil
import subprocess
import sys
import time
from importlib import import_module
from pathlib import Path
from typing import Any, Callable, Optional

from harness import fail

# The colour in the middle of each dot, a row of the sign after the other.
DOTS = """
const canvas = document.getElementById('sign'), [width, height] = arguments;
const pitch = canvas.width / width, found = [];
const points = canvas.getContext('2d').getImageData(0, 0, canvas.width, canvas.height).data;
for (let row = 0; row < height; row++) {
  for (let column = 0; column < width; column++) {
    const x = Math.floor((column + 0.5) * pitch), y = Math.floor((row + 0.5) * pitch);
    const point = 4 * (y * canvas.width + x);
    found.push(65536 * points[point] + 256 * points[point + 1] + points[point + 2]);
  }
}
return [canvas.dataset.time, canvas.dataset.page, found.join(' ')];
"""

# Keeps how long it takes from each key to its picture.
WATCH = """
window.took = [];
if (!window.isWatched) {
  window.isWatched = true;
  let key = null;
  document.getElementById('text').addEventListener('keydown', (event) => {
    key = event.timeStamp;
  }, true);
  new MutationObserver(() => {
    if (key !== null) {
      const begun = key;
      key = null;
      requestAnimationFrame(() => window.took.push(performance.now() - begun));
    }
  }).observe(document.getElementById('sign'), {attributeFilter: ['data-revision']});
}
"""


# Keeps the page of each picture that is drawn from now on.
PAGES = """
const canvas = document.getElementById('sign');
window.pages = [];
new MutationObserver(() => window.pages.push(canvas.dataset.page)).observe(canvas, {
  attributeFilter: ['data-page']});
"""

# Writes a message, as if it was pasted.
PUT = """
const text = document.getElementById('text');
text.focus();
text.select();
document.execCommand(arguments[0] ? 'insertText' : 'delete', false, arguments[0]);
"""

# What is told beside the outcome: the colour of that, whether the field is marked as wrong, the
# reason, how many warnings there are, and whether the picture is dim.
TOLD = """
const at = (id) => document.getElementById(id);
return [getComputedStyle(at('outcome')).color, at('text').getAttribute('aria-invalid'),
        at('reason').textContent, at('warnings').children.length,
        at('sign').classList.contains('stale')];
"""

# The texts by which the field is described.
DESCRIBED = """
const names = document.getElementById('text').getAttribute('aria-describedby').split(' ');
return names.map((name) => document.getElementById(name).textContent);
"""

# Has answers on some texts "held" until others are named, or "lost" for ever, and all of them come
# some milliseconds later.
LATE = """
window.answers ??= window.fetch;
[window.late, window.delay] = arguments;
window.fetch = async (path, words) => {
  const text = words && words.body ? JSON.parse(words.body).text : '';
  if (window.late[text] === 'lost') {
    return new Promise(() => {});
  }
  const reply = await window.answers(path, words);
  await new Promise((resolve) => setTimeout(resolve, window.delay));
  while (window.late[text] === 'held') {
    await new Promise((resolve) => setTimeout(resolve, 50));
  }
  return reply;
};
"""

# Is told that a second picture of the page is drawn from now on: a new size is known to it by then.
DRAWN = "requestAnimationFrame(() => requestAnimationFrame(() => arguments[0]()));"

# Has the text area hold a line break that no key wrote.
BREAK = """
const text = document.getElementById('text');
text.setRangeText('\\n', 1, 1, 'end');
text.dispatchEvent(new Event('input'));
"""

# Which part of its panel the sign fills, how many labels are away from their fields, by how much
# the page is too wide and the field too low, and by how much the sign, the field and what is said
# of its text are out of sight.
FITS = """
window.scrollTo(0, 0);
const at = (id) => document.getElementById(id), text = at('text'), panel = at('case');
const {paddingLeft, paddingRight} = getComputedStyle(panel);
const room = panel.clientWidth - parseFloat(paddingLeft) - parseFloat(paddingRight);
const seen = ['sign', 'text', 'outcome', 'reason'].map(at).filter((it) => !it.hidden);
const boxes = seen.map((it) => it.getBoundingClientRect());
const away = [...document.querySelectorAll('.pair')].filter((pair) => {
  const [label, field] = [...pair.children].map((it) => it.getBoundingClientRect());
  return label.bottom < field.top || field.bottom < label.top;
});
return [boxes[0].width / room, away.length, document.documentElement.scrollWidth - innerWidth,
        text.scrollHeight - text.clientHeight,
        Math.max(...boxes.map((box) => Math.max(box.bottom - innerHeight, -box.top)))];
"""

# By how much the marks of a slip are wider or higher than the text that stands before them.
MARKED = """
const [marks, text] = ['marks', 'text'].map((id) => document.getElementById(id));
return ['clientWidth', 'scrollHeight'].map((size) => Math.abs(marks[size] - text[size]));
"""

# Of each small sign of a page: its words, and whether it is pressed.
STRIP = """
const strip = [...document.getElementById('strip').children];
return strip.map((page) => [page.textContent, page.getAttribute('aria-pressed')]);
"""

# Where the panel of each sign stands, from the left and from the top.
CASES = """
const boxes = [...document.querySelectorAll('.case')].map((it) => it.getBoundingClientRect());
return boxes.map(({left, top}) => [left, Math.round(top)]);
"""

# What is said of each other sign, and whether its picture is dim.
OTHERS = """
return [...document.querySelectorAll('.other')].map((other) => [
  other.querySelector('.outcome').textContent, other.querySelector('.code').textContent,
  other.querySelector('canvas').classList.contains('stale')]);
"""

# How light a colour is, the contrast of two, and the colour that is seen behind an element.
CONTRAST = """
const numbers = (colour) => colour.match(/[\\d.]+/g).map(Number);
const light = (colour) => {
  const shares = numbers(colour).slice(0, 3).map((share) => share / 255);
  const [red, green, blue] = shares.map((share) =>
    share <= 0.03928 ? share / 12.92 : ((share + 0.055) / 1.055) ** 2.4);
  return 0.2126 * red + 0.7152 * green + 0.0722 * blue;
};
const behind = (element) => {
  const colour = getComputedStyle(element).backgroundColor, above = element.parentElement;
  return numbers(colour)[3] !== 0 ? colour : above ? behind(above) : 'rgb(255, 255, 255)';
};
const contrast = (...colours) => {
  const pair = colours.map(light);
  return (Math.max(...pair) + 0.05) / (Math.min(...pair) + 0.05);
};
"""

# The elements whose text has less than a contrast, with that of each.
FAINT = f"""{CONTRAST}
const faint = [];
for (const element of document.querySelectorAll('body *:not(option)')) {{
  const words = [...element.childNodes].filter((node) => node.nodeType === 3 && node.data.trim());
  const has = words.length || element.matches('textarea, select');
  if (has && element.checkVisibility() && !element.disabled) {{
    const seen = element.closest('#marks') ? document.getElementById('text') : element;
    const found = contrast(getComputedStyle(seen).color, behind(element));
    if (found < arguments[0]) {{
      faint.push(`${{element.localName}}#${{element.id}} ${{found.toFixed(2)}}`);
    }}
  }}
}}
return faint;
"""

# Of the element that has the focus: what it is called here, how wide its outline is, the contrast
# of that, and whether the element is in sight. Nothing, if none has the focus.
FOCUS = f"""{CONTRAST}
const it = document.activeElement;
if (!it || it === document.body) {{
  return null;
}}
const {{outlineStyle, outlineWidth, outlineColor}} = getComputedStyle(it);
const box = it.getBoundingClientRect();
const seen = document.elementFromPoint(box.left + box.width / 2, box.top + box.height / 2);
return [`${{it.localName}}#${{it.id}} ${{it.textContent}}`,
        outlineStyle === 'none' ? 0 : parseFloat(outlineWidth),
        contrast(outlineColor, behind(it.parentElement)), it.contains(seen)];
"""

# What is wrong with the page's elements: ids that aren't one element's, a name of an element that
# isn't there, an order of the tab key of its own, no title, language or first heading, and buttons
# and fields with fewer than 24 pixels to hit.
FAULTS = """
const all = (what) => [...document.querySelectorAll(what)], found = [];
const ids = all('[id]').map(({id}) => id);
found.push(...ids.filter((id, place) => ids.indexOf(id) !== place).map((id) => `${id} is twice`));
for (const name of ['for', 'aria-describedby', 'aria-labelledby', 'aria-controls']) {
  for (const element of all(`[${name}]`)) {
    const missing = element.getAttribute(name).split(' ').filter((id) => !ids.includes(id));
    found.push(...missing.map((id) => `${name} ${id} isn't there`));
  }
}
found.push(...all('[tabindex]').filter((it) => it.tabIndex > 0).map((it) => `${it.id} is first`));
found.push(...(document.title && document.documentElement.lang ? [] : ['no title or language']));
found.push(...(all('h1').length === 1 ? [] : ['no one first heading']));
for (const element of all('button, select, textarea')) {
  const {width, height} = element.getBoundingClientRect();
  if (element.checkVisibility() && Math.min(width, height) < 24) {
    found.push(`${element.id} ${element.textContent} has ${width} by ${height} pixels`);
  }
}
return found;
"""

# How large the letters of an element are.
LETTERS = "return parseFloat(getComputedStyle(document.getElementById(arguments[0])).fontSize);"


def selenium() -> Optional[Any]:
    """The module that drives a browser, if it is installed."""
    try:
        return import_module("selenium.webdriver")
    except ImportError:
        # Debian's modules are those of Debian's Python.
        if os.path.exists("/usr/bin/python3") and "LATSEFUR_TRIED" not in os.environ:
            os.environ["LATSEFUR_TRIED"] = "yes"
            os.execv("/usr/bin/python3", ["/usr/bin/python3", *sys.argv])
        return None


# Where the pictures of the page are left.
PICTURES = Path("out/hosts/preview")

# The sizes of the page in CSS pixels; those of phones are touched with a finger.
SIZES = {"wide": (1280, 800), "phone": (390, 844), "landscape": (844, 390)}


class Served:
    """The server of the page of these signs. Once it has a port, it keeps that."""

    def __init__(self, *signs: Path) -> None:
        self.port, self.signs = 0, signs
        self.start()

    def start(self) -> None:
        words = [sys.executable, "-m", "latsefur.preview"]
        words += [word for sign in self.signs for word in ("--sign", str(sign))]
        words += ["--port", str(self.port)]
        settings = {**os.environ, "PYTHONPATH": "hosts/python"}
        self.process = subprocess.Popen(words, env=settings, stdout=subprocess.PIPE, text=True)
        self.url = self.process.stdout.readline().strip() if self.process.stdout else ""
        found = re.fullmatch(r"http://127\.0\.0\.1:(\d+)/", self.url)
        if not found:
            fail(f"the page is served at {self.url}")
        self.port = int(found[1])

    def kill(self) -> None:
        self.process.kill()
        self.process.wait()


class Browser:
    """A page in a headless Chromium."""

    def __init__(self, webdriver: Any, url: str, folder: Path) -> None:
        options = webdriver.ChromeOptions()
        for word in ("--headless=new", "--no-sandbox", "--disable-gpu", "--window-size=1280,800"):
            options.add_argument(word)
        options.add_argument(f"--user-data-dir={folder}/profile")
        options.add_experimental_option("prefs", {"download.default_directory": str(folder)})
        options.set_capability("goog:loggingPrefs", {"browser": "ALL"})
        options.binary_location = shutil.which("chromium")
        chrome = import_module("selenium.webdriver.chrome.service")
        service = chrome.Service(shutil.which("chromedriver"))
        self.driver: Any = webdriver.Chrome(options=options, service=service)
        self.driver.set_script_timeout(30)
        for permission in ("clipboard-read", "clipboard-write"):
            words = {"permission": {"name": permission}, "setting": "granted", "origin": url}
            self.driver.execute_cdp_cmd("Browser.setPermission", words)
        self.driver.get(url)
        self.begin()
        self.width, self.height = (
            int(number) for number in re.findall(r"\d+", self.at("size").text)[:2]
        )

    def begin(self) -> None:
        """Waits for a page that was loaded, and has it stand still."""
        self.wait("a begin", lambda: self.revision() and self.cells())
        self.text = self.at("text")
        if self.at("play").text == "Pause":
            self.press(self.at("play"))

    def at(self, name: str) -> Any:
        return self.driver.find_element("id", name)

    def first(self, what: str) -> Any:
        """The first element that a selector names."""
        return self.driver.find_element("css selector", what)

    def press(self, element: Any) -> None:
        """Clicks an element, where it can be seen: on a phone the sign stands before others."""
        self.run("arguments[0].scrollIntoView({block: 'center'});", element)
        element.click()

    def cells(self) -> Any:
        return self.driver.find_elements("css selector", "#cells button")

    def run(self, script: str, *words: object) -> Any:
        return self.driver.execute_script(script, *words)

    def wait(self, what: str, there: Callable[[], object], seconds: int = 60) -> None:
        """Waits until something is so."""
        end = time.monotonic() + seconds
        while not there():
            if time.monotonic() > end:
                fail(f"the page doesn't come to this: {what}")
            time.sleep(0.01)

    def revision(self) -> int:
        return int(self.at("sign").get_attribute("data-revision") or 0)

    def kind(self) -> str:
        """What the page says of its text, in a word."""
        return str(self.at("verdict").get_attribute("data-kind"))

    def is_judged(self) -> bool:
        """Whether the last answer is one to what is wanted now."""
        return str(self.text.get_attribute("data-revision")) == str(self.revision())

    def value(self) -> str:
        return str(self.text.get_attribute("value"))

    def put(self, message: str) -> None:
        """Has the text area hold a message."""
        self.run(PUT, message)

    def errors(self) -> list[str]:
        """The errors in the browser's log since it was last read."""
        log = self.driver.get_log("browser")
        return [line["message"] for line in log if line["level"] == "SEVERE"]

    def size(self, name: str) -> None:
        """Gives the page a size of `SIZES`. One that is wider than its screen never comes to it."""
        width, height = SIZES[name]
        is_phone = name != "wide"
        words = {"width": width, "height": height, "mobile": is_phone}
        words["deviceScaleFactor"] = 2 if is_phone else 1
        self.driver.execute_cdp_cmd("Emulation.setDeviceMetricsOverride", words)
        self.driver.execute_cdp_cmd("Emulation.setTouchEmulationEnabled", {"enabled": is_phone})
        what = f"a page of {width} by {height} pixels"
        self.wait(what, lambda: self.run("return [innerWidth, innerHeight]") == [width, height])
        self.driver.execute_async_script(DRAWN)

    def paint(self, scheme: str) -> None:
        """Makes the page light or dark."""
        feature = {"name": "prefers-color-scheme", "value": scheme}
        self.driver.execute_cdp_cmd("Emulation.setEmulatedMedia", {"features": [feature]})
        self.driver.execute_async_script(DRAWN)

    def picture(self, name: str) -> None:
        """Leaves a picture of what is in sight."""
        PICTURES.mkdir(parents=True, exist_ok=True)
        self.driver.execute_async_script(DRAWN)
        self.driver.save_screenshot(str(PICTURES / f"{name}.png"))

    def tab(self) -> Any:
        """Presses the tab key, and gives what `FOCUS` says of the element that has the focus."""
        keys = import_module("selenium.webdriver.common.keys").Keys
        chains = import_module("selenium.webdriver.common.action_chains")
        chains.ActionChains(self.driver).send_keys(keys.TAB).perform()
        return self.run(FOCUS)

    def labels(self, within: str) -> list[str]:
        """The words of each button of an element."""
        found = self.driver.find_elements("css selector", f"#{within} button")
        return [str(it.get_attribute("textContent")) for it in found]

    def do(self, what: Callable[[], object]) -> None:
        """Does something that asks for another picture, and waits for it."""
        before = self.revision()
        what()
        self.wait("another picture", lambda: self.revision() > before and self.is_judged())

    def write(self, message: str) -> None:
        """Has the text area hold a message, and waits for its picture."""
        if self.value() != message:
            self.do(lambda: self.put(message))

    def choose(self, value: str) -> None:
        """Chooses what is shown."""
        script = "const view = document.getElementById('view'); view.value = arguments[0];"
        self.do(lambda: self.run(script + "view.dispatchEvent(new Event('change'))", value))

    def seek(self, tenths: int) -> None:
        """Chooses a time."""
        script = "const time = document.getElementById('time'); time.value = arguments[0];"
        self.do(lambda: self.run(script + "time.dispatchEvent(new Event('input'))", tenths))

    def dots(self) -> tuple[int, str, list[int]]:
        """The time and the page of the picture that is there, and the colour of each dot."""
        at, page, found = self.run(DOTS, self.width, self.height)
        return int(at), page, [int(dot) for dot in found.split()]
