"""The pages in headless Chromium: no errors, contrast, a phone's width, the keyboard, and nothing of a user's that lives."""
import importlib
import os
from pathlib import Path
from typing import Any, Callable, Dict, Iterator, List

import projects
import pytest
import stores
from commands import ae

Lay = Callable[[Dict[str, bytes]], Path]
STORY = Path(__file__).resolve().parent.parent / "stories" / "audited" / "stores" / "before"
# the key, as a driver of browsers has it
TAB = "\ue004"
CHROMIUM, DRIVER = "/usr/bin/chromium", "/usr/bin/chromedriver"

# the least contrast of a text with what is below it, and the text that has it
CONTRAST = """
const light = (c) => { const f = c.map(v => v / 255).map(v => v <= .03928 ? v / 12.92 : ((v + .055) / 1.055) ** 2.4);
  return .2126 * f[0] + .7152 * f[1] + .0722 * f[2]; };
const parts = (text) => text.match(/[0-9.]+/g).map(Number);
const below = (element) => { for (let e = element; e; e = e.parentElement) { const c = parts(getComputedStyle(e).backgroundColor);
  if (c.length < 4 || c[3] > 0) return c.slice(0, 3); } return [255, 255, 255]; };
let least = [99, ''];
const walker = document.createTreeWalker(document.body, NodeFilter.SHOW_TEXT);
while (walker.nextNode()) { const e = walker.currentNode.parentElement, style = getComputedStyle(e);
  if (!walker.currentNode.data.trim() || e.closest('title, defs') || style.display === 'none') continue;
  const ink = e instanceof SVGElement ? style.fill : style.color;
  const [a, b] = [light(parts(ink).slice(0, 3)), light(below(e))].sort((x, y) => y - x);
  const ratio = (a + .05) / (b + .05); if (ratio < least[0]) least = [ratio, walker.currentNode.data]; }
return least;
"""
WIDTH = "return Math.max(document.documentElement.scrollWidth, document.body.scrollWidth)"
FOCUS = "return [...document.querySelectorAll('a[href]')].indexOf(document.activeElement)"


def chromium() -> Any:
    """Chromium, driven by selenium; nothing where one of the two isn't there."""
    try:
        webdriver: Any = importlib.import_module("selenium.webdriver")
        service: Any = importlib.import_module("selenium.webdriver.chrome.service")
    except ModuleNotFoundError:
        return None
    if not os.path.exists(CHROMIUM) or not os.path.exists(DRIVER):
        return None
    options = webdriver.ChromeOptions()
    options.binary_location = CHROMIUM
    for word in ["--headless=new", "--no-sandbox", "--disable-gpu", "--disable-dev-shm-usage", "--no-first-run"]:
        options.add_argument(word)
    options.set_capability("goog:loggingPrefs", {"browser": "ALL"})
    return webdriver.Chrome(service=service.Service(DRIVER), options=options)


@pytest.fixture(scope="module")
def browser() -> Iterator[Any]:
    """Chromium; without it these tests are left out, unless CI asks for them."""
    driver = chromium()
    if driver is None:
        missing = "there is no chromium, chromium-driver or python3-selenium"
        pytest.fail(missing) if os.environ.get("CI") == "true" else pytest.skip(missing)
    driver.set_page_load_timeout(600)
    yield driver
    driver.quit()


def shape(browser: Any, width: int) -> None:
    """Gives the window this width."""
    browser.execute_cdp_cmd(
        "Emulation.setDeviceMetricsOverride", {"width": width, "height": 740, "deviceScaleFactor": 1, "mobile": width < 500}
    )


def look(browser: Any, path: Path) -> None:
    """A page has no errors, is no wider than a phone, and each text of it can be read."""
    shape(browser, 360)
    browser.get(path.as_uri())
    assert browser.execute_script(WIDTH) <= 360, path.name
    least, text = browser.execute_script(CONTRAST)
    assert least >= 4.5, f"{path.name}: {text!r} has the contrast {least:.2f}"
    shape(browser, 1200)
    assert browser.execute_script(WIDTH) <= 1200, path.name
    assert browser.get_log("browser") == [], path.name
    assert browser.execute_script("return getComputedStyle(document.querySelector('.skip')).position") == "absolute", path.name
    picture(browser, path)


def picture(browser: Any, path: Path) -> None:
    """Keeps pictures of the page where EVIDENCE_PICTURES names a folder for people to look at."""
    folder = os.environ.get("EVIDENCE_PICTURES")
    for width in (360, 1200) if folder else ():
        shape(browser, width)
        browser.save_screenshot(os.path.join(str(folder), f"{path.parent.parent.name}-{path.stem}-{width}.png"))


def by_keyboard(browser: Any, path: Path) -> None:
    """The key Tab goes from link to link in the order of the page."""
    browser.get(path.as_uri())
    count = len(browser.find_elements("css selector", "a[href]"))
    found = []
    for _ in range(min(count, 30)):
        browser.switch_to.active_element.send_keys(TAB)
        found.append(browser.execute_script(FOCUS))
    assert found == list(range(min(count, 30))), path.name
    assert "skip" in browser.find_elements("css selector", "a[href]")[0].get_attribute("class")


def pages(lay: Lay, files: Dict[str, bytes]) -> Path:
    """The folder of the pages of a project."""
    top = lay(files)
    assert ae(top, "pages", "pages").returncode == 0
    return top / "pages"


def sample(folder: Path) -> List[Path]:
    """A page of each kind, and some more."""
    names = ["index.html", "deltas.html", "files.html"]
    for pattern in ("delta-*.html", "change-*.html", "path/*.html"):
        names += [path.relative_to(folder).as_posix() for path in sorted(folder.glob(pattern))[:3]]
    return [folder / name for name in names]


def files_of(kind: str) -> Dict[str, bytes]:
    """The store of a worked story, of forty changes, or of many files."""
    if kind == "story":
        return {path.name: path.read_bytes() for path in STORY.iterdir()}
    return stores.files_of(projects.LargeMaker(7).make() if kind == "forty" else projects.of_many_files(2000, 20))


@pytest.mark.parametrize("kind", ["story", "forty", "many"])
def test_pages_can_be_read(browser: Any, lay: Lay, kind: str) -> None:
    """Each kind of page, and the keyboard on those that have most links."""
    folder = pages(lay, files_of(kind))
    for path in sample(folder):
        look(browser, path)
    for name in ["index.html", "deltas.html", "delta-1.html"]:
        by_keyboard(browser, folder / name)


def test_nothing_of_a_user_lives(browser: Any, lay: Lay) -> None:
    """Descriptions, reasons and files that hold markup, scripts and escapes are texts, on each page."""
    folder = pages(lay, stores.files_of(projects.HostileMaker(12).make()))
    for path in sorted(folder.rglob("*.html")):
        browser.get(path.as_uri())
        assert browser.title != "live" and browser.execute_script("return document.scripts.length + document.images.length") == 0, path.name
    for path in sample(folder):
        look(browser, path)
