#!/usr/bin/env python3
"""Tries the pages of a folder in a browser, as scripts/page.sh makes them: NAME.html beside the listing, the PLY file and the surfaces of the same
mesh. Wants chromium, chromium-driver and python3-selenium from Debian's packages.

    page_test.py FOLDER [PICTURES]    with PICTURES, screenshots are left there
"""
import base64
import json
import math
import pathlib
import sys
import time

from selenium import webdriver
from selenium.webdriver.chrome.options import Options
from selenium.webdriver.chrome.service import Service
from selenium.webdriver.common.action_chains import ActionChains
from selenium.webdriver.common.by import By
from selenium.webdriver.common.keys import Keys
from selenium.webdriver.support.ui import Select, WebDriverWait

FLAGS = ["--headless=new", "--no-sandbox", "--use-angle=swiftshader", "--enable-unsafe-swiftshader", "--window-size=1200,1000", "--force-prefers-reduced-motion"]
MOST_CELLS = 2048
MIDDLE = 4294967295
INNER = 65536
# how often an answer is timed, and what no answer takes that is still to be called one: times are told, not asserted
TRIES = 3
MOST_SECONDS = 20


# A number for what the canvas shows.
DIGEST = """
const canvas = document.getElementById("view"), bytes = new Uint8Array(4 * canvas.width * canvas.height);
gl.readPixels(0, 0, canvas.width, canvas.height, gl.RGBA, gl.UNSIGNED_BYTE, bytes);
let sum = 7;
for (const word of new Uint32Array(bytes.buffer)) sum = (Math.imul(sum, 16777619) ^ word) >>> 0;
return sum;
"""


class Wanted:
    """What the program says of a mesh by its other commands."""

    def __init__(self, stem):
        listing = stem.with_suffix(".listing").read_text().splitlines()
        totals = listing[0].split()
        self.cells, self.crossings = int(totals[1]), int(totals[5])
        self.triangles = [[MIDDLE if word == "-" else int(word) for word in line.split()[1:]] for line in listing[1:]]
        self.surfaces = json.loads(stem.with_suffix(".json").read_text())["surfaces"]
        head, body = stem.with_suffix(".ply").read_text().split("end_header\n")
        vertices = next(int(line.split()[2]) for line in head.splitlines() if line.startswith("element vertex"))
        rows = body.splitlines()
        self.points = [tuple(map(float, row.split())) for row in rows[:vertices]]
        self.corners = [list(map(int, row.split()[1:4])) for row in rows[vertices:]]


class Page:
    def __init__(self, driver, file):
        self.driver = driver
        driver.get(file.resolve().as_uri())
        WebDriverWait(driver, 60).until(lambda of: of.execute_script("return document.documentElement.dataset.ready") == "yes")
        self.settle()

    def one(self, name):
        return self.driver.find_element(By.ID, name)

    def settle(self):
        """Waits until what was asked for is drawn."""
        self.driver.execute_async_script("const done = arguments[0]; requestAnimationFrame(() => requestAnimationFrame(() => done()))")

    def canvas(self):
        self.settle()
        return self.driver.execute_script(DIGEST)

    def film(self):
        return self.one("film").get_attribute("innerHTML")

    def told(self):
        rows = self.one("triangle").find_elements(By.TAG_NAME, "tr")
        return {row.find_element(By.TAG_NAME, "th").text: row.find_element(By.TAG_NAME, "td").text for row in rows}

    def fill(self, name, value):
        field = self.one(name)
        field.send_keys(Keys.CONTROL, "a")
        field.send_keys(str(value), Keys.ENTER)
        self.settle()

    def tell(self, triangle):
        self.fill("number", triangle)
        return self.told()


def check(holds, what):
    if not holds:
        raise SystemExit(f"page: {what}")


def check_told(wanted, told, triangle):
    """What the page tells of a triangle is what the listing and the PLY file have."""
    words = wanted.triangles[triangle]
    check(told["triangle"] == str(triangle), f"triangle {triangle} is told as {told}")
    check(told["cell"] == str(words[0] % MOST_CELLS) and told["p0"] == str(words[1]), f"cell or p0 of triangle {triangle}: {told}")
    part = words[0] // MOST_CELLS
    check(told["sub-cell"] == (str(part) if part else "none"), f"sub-cell of triangle {triangle}: {told}")
    names = []
    for word in words[2:5]:
        inner = f"inner crossing {word} of cell {words[0] % MOST_CELLS}"
        names.append("middle of its loop" if word == MIDDLE else inner if word >= INNER else f"crossing {word}")
    corners = [told[f"corner {at}"].split(", at ") for at in range(3)]
    check(sorted(corner[0] for corner in corners) == sorted(names), f"corners of triangle {triangle}: {told}")
    places = sorted(tuple(map(float, corner[1].split(", "))) for corner in corners)
    check(places == sorted(wanted.points[at] for at in wanted.corners[triangle]), f"places of triangle {triangle}: {told}")
    check(told["loop"] and (part == 0 or "sub-cell" in told["loop"]), f"loop of triangle {triangle}: {told}")


def projected(page, place, box):
    """Where a place is in the view of the start, in pixels from the canvas's middle."""
    low, high = box
    size = page.one("view").size
    reach = math.dist(low, high) / 2
    turned = [math.radians(30), math.radians(20)]
    (cr, cu), (sr, su) = map(math.cos, turned), map(math.sin, turned)
    at = [(number - (a + b) / 2) / reach for number, a, b in zip(place, low, high)]
    unit = min(size["width"], size["height"]) * 0.98 / 2
    right, up = [cr, sr, 0], [-sr * su, cr * su, cu]
    return [unit * sum(a * b for a, b in zip(right, at)), -unit * sum(a * b for a, b in zip(up, at))]


def numbers_are_told(page, wanted):
    text = page.one("summary").text.replace(",", "")
    numbers = [int(word) for word in text.split() if word.isdigit()]
    open_sides = sum(surface["open_sides"] for surface in wanted.surfaces)
    check(numbers == [wanted.cells, wanted.crossings, len(wanted.triangles), len(wanted.surfaces), open_sides], f"the summary is '{text}'")
    items = [item.text.replace(",", "") for item in page.one("surfaces").find_elements(By.TAG_NAME, "li")]
    check(len(items) == len(wanted.surfaces), f"{len(items)} surfaces are listed")
    for at, (item, surface) in enumerate(zip(items, wanted.surfaces)):
        shape = "closed" if surface["closed"] else f"open {surface['open_sides']} open sides"
        check(item.startswith(f"{at}: {surface['triangles']} triangles {shape}"), f"surface {at} is told as '{item}'")
    every = max(1, len(wanted.triangles) // 12)
    for triangle in range(0, len(wanted.triangles), every):
        check_told(wanted, page.tell(triangle), triangle)


def surfaces_switch(page):
    whole, film = page.canvas(), page.film()
    boxes = page.one("surfaces").find_elements(By.TAG_NAME, "input")
    boxes[0].click()
    without = page.canvas()
    check(without != whole and page.film() != film, "a surface that is switched off is still there")
    boxes[0].click()
    check(page.canvas() == whole and page.film() == film, "a surface that is switched on again is another")
    page.one("all-off").click()
    check("class=\"curve\"" not in page.film() and page.canvas() not in (whole, without), "no surface is on, and one is drawn")
    page.one("all-on").click()
    check(page.canvas() == whole, "all surfaces are on, and the picture is another")


def section_moves(page):
    film, whole = page.film(), page.canvas()
    page.one("slider").send_keys(Keys.ARROW_RIGHT * 40)
    check(page.film() != film and page.canvas() != whole, "the slider does not move the section")
    Select(page.one("axis")).select_by_visible_text("z")
    check("z = 30" in page.one("film-words").text, "the section is not at z = 30")
    page.fill("place", "18.5")
    check("z = 18.5:" in page.one("film-words").text, "the section is not at z = 18.5")
    before = page.canvas()
    page.one("cut").click()
    check(page.canvas() != before, "nothing is cut off at the section")
    page.one("cut").click()
    Select(page.one("axis")).select_by_visible_text("y")
    check(page.film() == film and page.canvas() == whole, "the section is not where it was")


def curves_lie_on_the_mesh(page, wanted):
    """The section has a piece for each triangle that has corners on both sides."""
    page.fill("place", "18.5")
    pieces = page.driver.execute_script("return [...document.querySelectorAll('#film .curve')].map((of) => [of.dataset.surface, of.getAttribute('d').split('M').length - 1])")
    cut = {}
    first = [surface["first"] for surface in wanted.surfaces]
    surfaces = page.driver.execute_script("return JSON.parse(document.getElementById('data').textContent).surface")
    check([surfaces[at] for at in first] == list(range(len(first))), "the first triangles of surfaces are others")
    for at, corners in enumerate(wanted.corners):
        if len({wanted.points[corner][1] >= 18.5 for corner in corners}) == 2:
            cut[str(surfaces[at])] = cut.get(str(surfaces[at]), 0) + 1
    check(dict(pieces) == cut, f"the section has the pieces {pieces}, and {cut} triangles are cut")
    page.fill("place", "30")


def clicks_tell(page, wanted):
    points = [point for corners in wanted.corners for point in corners]
    check(points, "there is no triangle")
    box = [0, 0, 0], [60, 60, 60]
    found = 0
    for x, y in [(0, 60), (-90, 40), (60, -20), (120, 90), (-20, 100)]:
        ActionChains(page.driver).move_to_element_with_offset(page.one("view"), x, y).click().perform()
        page.settle()
        told = page.told()
        if not told:
            continue
        found += 1
        triangle = int(told["triangle"])
        check_told(wanted, told, triangle)
        seen = [projected(page, wanted.points[at], box) for at in wanted.corners[triangle]]
        turns = [(q[0] - p[0]) * (y - p[1]) - (q[1] - p[1]) * (x - p[0]) for p, q in zip(seen, seen[1:] + seen[:1])]
        size = abs((seen[1][0] - seen[0][0]) * (seen[2][1] - seen[0][1]) - (seen[1][1] - seen[0][1]) * (seen[2][0] - seen[0][0]))
        least = -0.02 * size - 40
        check(all(t > least for t in turns) or all(t < -least for t in turns), f"triangle {triangle} is not at {x}, {y}: {seen}")
    check(found >= 3, f"{found} of 5 clicks met a triangle")


def hands_turn(page):
    view = page.one("view")
    page.one("let-go").click()
    page.driver.find_element(By.CSS_SELECTOR, "[data-view=home]").click()
    start = page.canvas()
    ActionChains(page.driver).move_to_element(view).click_and_hold().move_by_offset(60, 20).release().perform()
    turned = page.canvas()
    check(turned != start and not page.told(), "a drag does not turn the picture, or it clicks")
    ActionChains(page.driver).key_down(Keys.SHIFT).move_to_element(view).click_and_hold().move_by_offset(60, 20).release().key_up(Keys.SHIFT).perform()
    shifted = page.canvas()
    check(shifted != turned, "a drag with Shift does not shift the picture")
    ActionChains(page.driver).scroll_from_origin(webdriver.common.actions.wheel_input.ScrollOrigin.from_element(view), 0, -300).perform()
    check(page.canvas() != shifted, "the wheel does not zoom")
    page.driver.find_element(By.CSS_SELECTOR, "[data-view=home]").click()
    check(page.canvas() == start, "the whole is not shown as at the start")


def keys_reach_everything(page):
    driver = page.driver
    focusable = "button, select, input, [tabindex='0']"
    all_of = driver.execute_script(f"return [...document.querySelectorAll(\"{focusable}\")].filter((of) => of.offsetParent).length")
    driver.execute_script("document.activeElement.blur(); window.scrollTo(0, 0)")
    reached = set()
    for _ in range(all_of + 6):
        ActionChains(driver).send_keys(Keys.TAB).perform()
        name = driver.execute_script("const of = document.activeElement; return of === document.body ? null : of.id + of.outerHTML.slice(0, 120)")
        if name:
            reached.add(name)
    check(len(reached) == all_of, f"{len(reached)} of {all_of} controls are reached by keys")
    driver.execute_script("document.getElementById('view').focus()")
    shots = [page.canvas()]
    for key in [Keys.ARROW_LEFT, Keys.ARROW_UP, "+", "x", "z", "y"]:
        ActionChains(driver).send_keys(key).perform()
        shots.append(page.canvas())
        check(shots[-1] != shots[-2], f"the key {key!r} changes nothing")
    ActionChains(driver).key_down(Keys.SHIFT).send_keys(Keys.ARROW_UP).key_up(Keys.SHIFT).send_keys("z").send_keys(Keys.ENTER).perform()
    page.settle()
    check(page.told(), "Enter takes no triangle")
    ActionChains(driver).send_keys(Keys.ESCAPE).send_keys("0").perform()
    page.settle()
    check(not page.told() and page.canvas() == shots[0], "Escape and 0 do not lead back")


CONTRASTS = """
const channel = (of) => (of /= 255) <= 0.04045 ? of / 12.92 : ((of + 0.055) / 1.055) ** 2.4;
const light = (rgb) => 0.2126 * channel(rgb[0]) + 0.7152 * channel(rgb[1]) + 0.0722 * channel(rgb[2]);
const rgb = (text) => text.match(/[\\d.]+/g).map(Number);
const ground = (of) => { for (; of; of = of.parentElement) { const own = rgb(getComputedStyle(of).backgroundColor); if (own.length < 4 || own[3] > 0) return own; } return [255, 255, 255]; };
const ratio = (a, b) => { const [x, y] = [light(a), light(b)].sort((p, q) => q - p); return (x + 0.05) / (y + 0.05); };
const found = [];
const walk = document.createTreeWalker(document.body, NodeFilter.SHOW_TEXT);
while (walk.nextNode()) {
  const of = walk.currentNode.parentElement;
  if (!walk.currentNode.textContent.trim() || !of.getClientRects().length || of.closest("script, style, noscript, title")) continue;
  const svg = of.closest("svg"), style = getComputedStyle(of);
  found.push([of.tagName + ": " + walk.currentNode.textContent.trim().slice(0, 30), ratio(rgb(svg ? style.fill : style.color), ground(svg || of)), 4.5]);
}
document.querySelectorAll("#film .curve").forEach((of) => found.push(["curve " + of.dataset.surface, ratio(rgb(getComputedStyle(of).stroke), ground(of.closest("svg"))), 3]));
document.querySelectorAll(".patch").forEach((of) => found.push(["patch", ratio(rgb(getComputedStyle(of).backgroundColor), ground(of.parentElement)), 3]));
document.querySelectorAll("button, input, select").forEach((of) => { if (of.type !== "range" && of.type !== "checkbox" && of.offsetParent) found.push(["rim of " + of.tagName, ratio(rgb(getComputedStyle(of).borderTopColor), ground(of.parentElement)), 3]); });
return found;
"""


def text_has_contrast(page, pictures):
    for theme in ["light", "dark"]:
        Select(page.one("theme")).select_by_visible_text(theme)
        page.settle()
        if pictures:
            page.driver.save_screenshot(str(pictures / f"{theme}.png"))
        found = page.driver.execute_script(CONTRASTS)
        check(len(found) > 30, f"only {len(found)} texts and marks are found")
        for what, ratio, least in found:
            check(ratio >= least, f"{what} has a contrast of {ratio:.2f} in {theme}")
    Select(page.one("theme")).select_by_visible_text("as the system")


def prints(page, pictures):
    pdf = base64.b64decode(page.driver.print_page())
    check(pdf.startswith(b"%PDF") and len(pdf) > 20000, f"the print has {len(pdf)} bytes")
    if pictures:
        (pictures / "print.pdf").write_bytes(pdf)


def asks_for_nothing(file):
    text = file.read_text()
    outside = [part[:40] for part in text.split("http")[1:] if not part.startswith(("://www.w3.org/2000/svg", "-equiv"))]
    check(not outside, f"the page names {outside}")


def works_without_webgl(driver, file, wanted):
    hide = "const get = HTMLCanvasElement.prototype.getContext; HTMLCanvasElement.prototype.getContext = function (kind, ...rest) { return kind === 'webgl2' ? null : get.call(this, kind, ...rest); }"
    added = driver.execute_cdp_cmd("Page.addScriptToEvaluateOnNewDocument", {"source": hide})
    page = Page(driver, file)
    check("no WebGL 2" in page.one("no-webgl").text, "without WebGL 2 the page does not say so")
    check_told(wanted, page.tell(1), 1)
    check("class=\"curve\"" in page.film(), "without WebGL 2 there is no section")
    driver.execute_cdp_cmd("Page.removeScriptToEvaluateOnNewDocument", {"identifier": added["identifier"]})


def answer_time(page, act):
    """How long an act takes until it is drawn, in seconds: the least of some times, since other work on the machine may hold one up."""
    script = f"const start = performance.now(); {act}; drawNow(); gl.readPixels(0, 0, 1, 1, gl.RGBA, gl.UNSIGNED_BYTE, new Uint8Array(4)); return performance.now() - start"
    times = []
    for _ in range(TRIES):
        page.settle()
        # lets what the act before left to do be done
        time.sleep(0.2)
        times.append(page.driver.execute_script(script) / 1000)
    return min(times)


def large_mesh_answers(driver, file, wanted):
    check(len(wanted.triangles) >= 40000, f"the large mesh has {len(wanted.triangles)} triangles")
    page = Page(driver, file)
    acts = {
        "turning": "turn(5, 3)",
        "a surface": "show([3], !state.visible[3])",
        "the section": "moveSection(0, 20 + 20 * Math.random())",
        "a click": "choose(pick(0.05, 0.02))",
    }
    times = {name: answer_time(page, act) for name, act in acts.items()}
    for name, seconds in times.items():
        check(seconds < MOST_SECONDS, f"{name} takes {seconds:.2f} s with {len(wanted.triangles)} triangles")
    return max(times.values())


def main():
    folder = pathlib.Path(sys.argv[1])
    pictures = pathlib.Path(sys.argv[2]) if len(sys.argv) > 2 else None
    options = Options()
    for flag in FLAGS:
        options.add_argument(flag)
    options.binary_location = "/usr/bin/chromium"
    options.set_capability("goog:loggingPrefs", {"browser": "ALL"})
    driver = webdriver.Chrome(options=options, service=Service("/usr/bin/chromedriver"))
    started = time.monotonic()
    try:
        wanted = {name: Wanted(folder / name) for name in ["scan", "split", "many"]}
        asks_for_nothing(folder / "scan.html")
        page = Page(driver, folder / "scan.html")
        for act in [surfaces_switch, section_moves, hands_turn, keys_reach_everything]:
            act(page)
        numbers_are_told(page, wanted["scan"])
        page.one("let-go").click()
        curves_lie_on_the_mesh(page, wanted["scan"])
        clicks_tell(page, wanted["scan"])
        text_has_contrast(page, pictures)
        prints(page, pictures)
        numbers_are_told(Page(driver, folder / "split.html"), wanted["split"])
        slowest = large_mesh_answers(driver, folder / "many.html", wanted["many"])
        works_without_webgl(driver, folder / "scan.html", wanted["scan"])
        log = [entry["message"] for entry in driver.get_log("browser") if entry["level"] in ("SEVERE", "WARNING")]
        check(not log, f"the console has {log}")
    finally:
        driver.quit()
    triangles = len(wanted["many"].triangles)
    print(f"page: as it must be, in {time.monotonic() - started:.0f} s; with {triangles} triangles the slowest answer took {slowest:.2f} s")


main()
