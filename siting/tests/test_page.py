"""report.html: its parts, and what it does in a browser, where chromium and selenium are installed."""

import shutil
from collections.abc import Iterator
from hashlib import sha256
from pathlib import Path
from re import findall
from typing import Any
from xml.etree import ElementTree

import pytest
from siting.drawing import heaviest, view_of
from siting.near import NearSet
from siting.page import Page, write_page
from siting.squares import bounded_squares
from siting.tiles import Search

SVG = "{http://www.w3.org/2000/svg}"
SHOWN = "return [...document.querySelectorAll('#map > g')].filter(g => g.getClientRects().length).map(g => g.id)"


@pytest.fixture(scope="module")
def path(search: Search, near: list[NearSet], tmp_path_factory: pytest.TempPathFactory) -> Path:
    words = "Near & far <of> @text@", ["It holds: 1 < 2."], "cost < 1\n@digest@", [(1, "one"), (2, "two")]
    found = tmp_path_factory.mktemp("page") / "report.html"
    write_page(Page(search, near, bounded_squares(search), *words), found)
    return found


def test_parts(path: Path, search: Search) -> None:
    page = path.read_text()
    assert "<h1>Near &amp; far &lt;of&gt; @text@</h1>" in page and "<li>It holds: 1 &lt; 2.</li>" in page
    assert "cost &lt; 1\n@digest@" in page  # what is put in isn't replaced again
    assert f'<code id="digest">{sha256(b"onetwo").hexdigest()}</code>' in page
    assert not findall(r"""(?:src|href|url)\s*[=(]\s*["']?(?!data:|#|'#)[\w/.:]""", page.replace("url(#", "url('#"))
    svg = ElementTree.fromstring(page[page.index('<svg xmlns="') : page.index("</svg>", page.index('id="north"')) + 6])
    names = {group.get("id") for group in svg.iter(f"{SVG}g")}
    assert names >= {"near-1", "near-2", "near-5", "near-10", "near-20", "squares", "forbidden", "towns", "site"}
    (towns,) = (group for group in svg.iter(f"{SVG}g") if group.get("id") == "towns")
    told = ["".join(mark.itertext()).strip() for mark in towns]
    assert told[0].startswith("<town ") and " km from the site, " in told[0] and 10 < len(told) < 80
    weights = [abs(float(text.split("weight ")[1].split(",")[0])) for text in told]
    assert weights == sorted(weights, reverse=True) and len(weights) == len(heaviest(search, view_of(search)))


def test_without_a_site_there_is_no_map(search: Search, tmp_path: Path, monkeypatch: pytest.MonkeyPatch) -> None:
    monkeypatch.setattr(search, "site", None)
    write_page(Page(search, [], [], "none", ["No point is permitted."], "", []), tmp_path / "report.html")
    page = (tmp_path / "report.html").read_text()
    assert 'id="map"' not in page and "<li>No point is permitted.</li>" in page


@pytest.fixture(scope="module")
def browser(path: Path) -> Iterator[Any]:
    if not (shutil.which("chromium") and shutil.which("chromedriver")):
        pytest.skip("chromium and chromedriver aren't installed")
    webdriver = pytest.importorskip("selenium.webdriver", reason="python3-selenium isn't installed")
    service = pytest.importorskip("selenium.webdriver.chrome.service")
    options = webdriver.ChromeOptions()
    for word in ("--headless=new", "--no-sandbox", "--disable-gpu", "--window-size=1100,1400"):
        options.add_argument(word)
    options.set_capability("goog:loggingPrefs", {"browser": "ALL", "performance": "ALL"})
    driver = webdriver.Chrome(service=service.Service(shutil.which("chromedriver")), options=options)
    try:
        driver.get(path.as_uri())
        yield driver
    finally:
        driver.quit()


def test_layers_switch(browser: Any) -> None:
    boxes = {box.get_attribute("data-layer"): box for box in browser.find_elements("css selector", "[data-layer]")}
    assert set(boxes) >= {"near-1", "near-20", "squares", "forbidden", "cost-lines", "towns"}
    for name, box in boxes.items():
        before = name in browser.execute_script(SHOWN)
        assert before == (name != "squares")
        box.click()
        assert (name in browser.execute_script(SHOWN)) != before
        box.send_keys(" ")  # by the keyboard
        assert (name in browser.execute_script(SHOWN)) == before


def test_a_town_tells_its_name_weight_and_distance(browser: Any) -> None:
    actions = pytest.importorskip("selenium.webdriver.common.action_chains")
    keys = pytest.importorskip("selenium.webdriver.common.keys").Keys
    told = browser.find_element("id", "told")
    assert told.text == ""
    town = browser.find_elements("css selector", "#towns > *")[3]
    actions.ActionChains(browser).move_to_element(town).perform()
    assert told.text.startswith("<town ") and "weight" in told.text and "km from the site" in told.text
    assert town.get_attribute("class") == "at"
    first = browser.execute_script("return document.querySelector('#towns > *').textContent.trim()")
    browser.execute_script("document.getElementById('towns').focus()")
    actions.ActionChains(browser).send_keys(keys.HOME).perform()
    assert told.text == first
    actions.ActionChains(browser).send_keys(keys.ARROW_RIGHT).perform()
    assert told.text not in ("", first)
    actions.ActionChains(browser).send_keys(keys.END, keys.ARROW_RIGHT).perform()
    assert len(browser.find_elements("css selector", "#towns > .at")) == 1


def test_the_map_is_reached_by_the_tabulator(browser: Any) -> None:
    actions = pytest.importorskip("selenium.webdriver.common.action_chains")
    keys = pytest.importorskip("selenium.webdriver.common.keys").Keys
    browser.execute_script("document.activeElement.blur(); window.getSelection().removeAllRanges()")
    browser.refresh()
    reached = []
    for _ in range(12):
        actions.ActionChains(browser).send_keys(keys.TAB).perform()
        reached.append(browser.execute_script("const e = document.activeElement; return e.id || e.dataset.layer"))
    assert "towns" in reached and {"near-1", "squares", "forbidden"} <= set(reached)


def test_nothing_is_loaded_and_nothing_fails(browser: Any) -> None:
    assert [line for line in browser.get_log("browser") if line["level"] != "INFO"] == []
    sent = findall(r'"method":"Network.requestWillBeSent".*?"url":"([^"]*)"', str(browser.get_log("performance")))
    assert all(url.startswith(("file:", "data:")) for url in sent)
    assert browser.execute_script("return performance.getEntriesByType('resource').length") == 0
