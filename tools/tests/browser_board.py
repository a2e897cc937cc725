"""What a person does on the page of `lab board`, in Chromium by selenium. It takes `served` or `site`, the page's
address, and maybe the names of steps, which alone are tried. test_board.py runs it with the system's Python, which has
selenium where Debian's package is installed. PICTURES names a folder where each step leaves a picture."""

import os
import random
import sys
import time

from browser import chromium, resize
from selenium.webdriver.common.by import By
from selenium.webdriver.common.keys import Keys
from selenium.webdriver.support.select import Select
from selenium.webdriver.support.wait import WebDriverWait

KIND, ADDRESS, *NAMES = sys.argv[1:]
PICTURES = os.environ.get("PICTURES")
SEED = 7
PATIENCE = 60


class Page:
    """The page in a browser, and what a person sees and does there."""

    def __init__(self):
        self.browser = chromium(1280, 900)

    def size(self, wide, high):
        resize(self.browser, wide, high)

    def open(self, where):
        self.browser.get("about:blank")
        self.browser.get(ADDRESS + where)

    def find(self, name):
        return self.browser.find_element(By.ID, name)

    def text(self, name):
        return " ".join(self.run(f"return document.getElementById('{name}').textContent").split())

    def run(self, code):
        return self.browser.execute_script(code)

    def wait(self, test, said):
        try:
            WebDriverWait(self.browser, PATIENCE, 0.1).until(lambda _: test())
        except Exception as fault:
            seen = {name: self.text(name) for name in ("value", "status", "work", "known", "planned", "list")}
            raise AssertionError(f"{said} wasn't seen at {self.browser.current_url}: {seen}") from fault

    def wait_for(self, name, words):
        self.wait(lambda: words in self.text(name), f"{words!r} in {name}")

    def wait_at(self, link):
        self.wait(lambda: self.browser.current_url.endswith(link), link)

    def press(self, keys):
        self.browser.find_element(By.TAG_NAME, "body").send_keys(keys)

    def push(self, name):
        self.run(f"document.getElementById('{name}').click()")

    def click(self, column):
        self.run(
            f"document.querySelector('[data-column={column}] rect[stroke]')"
            ".dispatchEvent(new MouseEvent('click', {bubbles: true}))"
        )

    def choose(self, name, value):
        Select(self.find(name)).select_by_value(value)

    def head(self, column):
        """The words over a column."""
        words = "[...document.querySelectorAll('[data-head=%s] text')].map(text => text.textContent)" % column
        return self.run(f"return {words}.join(' ')")

    def shoot(self, name):
        if PICTURES:
            self.browser.save_screenshot(os.path.join(PICTURES, f"{KIND}-{name}.png"))

    def fits(self):
        wide = self.run("return document.documentElement.scrollWidth")
        return wide <= self.run("return window.innerWidth")


# What holds with a server and without one.


def game_by_the_proof(page):
    """The usual board is won from its first move against Black's moves by chance, and at no time is another value told
    than White's win."""
    chance = random.Random(SEED)
    page.open("#7x6/-")
    page.wait_for("value", "White wins (proved by 1,497,727 lemmas")
    page.choose("by", "proof")
    page.wait_for("status", "White plays d1 (proved)")
    assert page.find("you").get_attribute("value") == "B"
    while "four in a line" not in page.text("status"):
        before = page.browser.current_url
        column = chance.choice(page.run(OPEN_COLUMNS))
        page.click(column)
        page.wait(lambda: page.browser.current_url != before and "answered by" in page.text("status"), "an answer")
        value = page.text("value")
        assert value.startswith("White "), value
        assert "Black" not in value and "draw" not in value, value
    page.wait_for("value", "White has four in a line and wins with move")
    page.shoot("won")


OPEN_COLUMNS = (
    "return [...document.querySelectorAll('[data-column]')].filter(one => !/full/.test(one.getAttribute('aria-label')))"
    ".map(one => one.dataset.column)"
)


def game_that_does_not_lose(page):
    """On 6 by 6 Black plays by the proof, and wins."""
    chance = random.Random(SEED)
    page.open("#6x6/-")
    page.choose("by", "proof")
    page.wait_for("status", "Black plays by a proof: White can't win")
    for _ in range(3):
        before = page.browser.current_url
        page.click(chance.choice(page.run(OPEN_COLUMNS)))
        page.wait(lambda: page.browser.current_url != before and "answered by" in page.text("status"), "an answer")
        page.wait_for("value", "Black")


def game_by_a_plan(page):
    """A game against the plan of 4 by 4: Back takes back a turn, and the plan stays."""
    page.open("#4x4/-")
    page.wait_for("planned", "Black has a plan")
    page.wait(lambda: "CE " in page.text("board"), "the plan on the board")
    page.shoot("plan")
    page.choose("by", "plan")
    page.wait_for("status", "Black plays by a plan: White never gets a line. You have White.")
    page.click("c")
    page.wait_for("status", "c1 was answered by d1")
    page.press("c")
    page.wait_for("status", "c2 was answered by c3")
    page.wait_at("#4x4/cdcc")
    page.push("back")
    page.wait_at("#4x4/cd")
    assert page.find("by").get_attribute("value") == "plan"
    page.press("d")
    page.wait_for("status", "d2 was answered by d3")
    page.wait_for("list", "start 1. c1 d1 2. d2 (2. c2")
    page.shoot("variation")
    page.browser.back()
    page.wait_at("#4x4/cd")
    page.press(Keys.ARROW_RIGHT)
    page.wait_at("#4x4/cddd")
    # A move of the list is looked at, and a click lets the game go on from there.
    page.run("document.querySelector('#list a[data-moves=cdc]').click()")
    page.wait_for("status", "A click on the board lets the game go on.")
    page.click("a")
    page.wait_for(
        "status", "Black plays c3 (proved)" if KIND == "site" else "Black plays c3, in the zone of LI:c2-c4,d2-d4"
    )
    page.push("resign")
    page.wait_for("value", "White has resigned: Black wins.")
    page.push("anew")
    page.wait_at("#4x4/-")
    page.wait_for("status", "Black plays by a plan")


def game_to_a_full_board(page):
    page.open("#4x4/cdccddcdaaaabb")
    page.choose("by", "proof" if KIND == "served" else "engine-1")
    page.wait_for("status", "You have White")
    page.click("b")
    page.wait_for("status", "b3 was answered by b4")
    page.wait_for("value", "The board is full and nobody has a line: a draw.")


def easy_opponents(page):
    """The easier engines answer at once, take a win and ward off a loss; colours and who begins are chosen."""
    page.open("#7x6/-")
    page.choose("men", "red-yellow")
    page.choose("you", "B")
    page.choose("by", "engine-1")
    page.wait_for("status", "(searched)")
    page.wait(lambda: page.browser.current_url[-1] in "abcdefg", "a first move")
    page.open("#7x6/dcdcd")
    page.choose("men", "red-yellow")
    page.choose("by", "engine-2")
    page.choose("you", "W")
    page.wait_for("status", "Yellow plays d4 (searched)")
    page.open("#7x6/dcdcdb")
    page.choose("you", "B")
    page.choose("by", "engine-3")
    page.wait_for("value", "White has four in a line and wins with move 7")


def bad_links(page):
    """What is wrong is told, and the board stays."""
    page.open("#7x6/abz")
    page.wait_for("status", "This link is wrong: letter 3, z, is no column of 7 by 6. The empty board stays.")
    page.wait_at("#7x6/-")
    assert len(page.run(OPEN_COLUMNS)) == 7
    page.shoot("bad-link")
    page.open("#4x4/abab")
    page.wait_for("status", "White to move")
    page.run("location.hash = '#4x4/aaaaa'")
    page.wait_for("status", "letter 5, a: that column is full. The last board stays.")
    page.wait_at("#4x4/abab")
    page.run("document.querySelector('details').open = true")
    moves = page.find("moves")
    for typed, said in (("zz", "no column"), ("abababac", "has ended"), ("aaaaa", "column is full")):
        moves.clear()
        moves.send_keys(typed, Keys.ENTER)
        page.wait_for("status", said)
    size = page.find("size")
    size.clear()
    size.send_keys("3x3", Keys.ENTER)
    page.wait_for("status", "4 to 10 columns")
    page.open("#4x4/abababa")
    page.wait_for("value", "White has four in a line and wins with move 7")
    page.click("c")
    page.wait_for("status", "The game is over")


def looks(page):
    """Dark by the system, as wide as a phone and as a beamer, and what a screen reader says."""
    page.open("#7x6/ddddddcae")
    page.wait_for("value", "White wins (proved")
    label = "return document.querySelector('[data-column=d]').getAttribute('aria-label')"
    assert page.run(label).startswith("column d, 4 of 7: white, black, white, black, white, black; full"), page.run(
        label
    )
    page.size(390, 844)
    assert page.fits()
    page.shoot("phone")
    page.size(1920, 1080)
    page.press("l")
    high = page.run("return document.querySelector('#board svg').getBoundingClientRect().height")
    assert high > 900 and page.fits(), high
    page.shoot("beamer")
    page.press(Keys.ESCAPE)
    page.size(1280, 900)
    light = page.run("return getComputedStyle(document.body).backgroundColor")
    scheme = [{"name": "prefers-color-scheme", "value": "dark"}]
    page.browser.execute_cdp_cmd("Emulation.setEmulatedMedia", {"features": scheme})
    dark = page.run("return getComputedStyle(document.body).backgroundColor")
    assert (light, dark) == ("rgb(255, 255, 255)", "rgb(22, 24, 28)"), (light, dark)
    page.wait(lambda: "#262a31" in page.run("return document.querySelector('#board').innerHTML"), "a dark board")
    page.shoot("dark")
    page.browser.execute_cdp_cmd("Emulation.setEmulatedMedia", {"features": []})


def pictures(page):
    """A picture of the position is saved, as SVG and as PNG."""
    page.open("#4x4/ababa")
    page.run(
        "URL.createObjectURL = (make => blob => { (window.saved ||= []).push(blob.type); return make(blob); })"
        "(URL.createObjectURL.bind(URL))"
    )
    page.push("svg")
    page.push("png")
    page.wait(lambda: "image/png" in page.run("return window.saved || []"), "a PNG")
    assert "image/svg+xml" in page.run("return window.saved")


# What takes a server.


def values(page):
    """The value of each move, with the link to a page of its proof."""
    page.open("#4x4/ababa")
    page.wait_for("value", "A draw (proved by ")
    page.wait(lambda: page.text("known").count("lemma") == 4, "four proofs")
    for told in ("a4draws, proved", "b3loses, proved", "c1loses, proved", "d1loses, proved"):
        assert told in page.text("known"), (told, page.text("known"))
    assert page.head("a").startswith("draws") and page.head("a").endswith("proved"), page.head("a")
    page.shoot("values")
    page.wait(lambda: page.run("return document.querySelectorAll('#graph circle').length") >= 5, "the graph")
    page.find("value").find_element(By.TAG_NAME, "a")
    link = page.browser.find_element(By.CSS_SELECTOR, "#known a[href^='proof/']").get_attribute("href")
    page.browser.get(link)
    assert "The moves from here" in page.browser.page_source


def mistakes(page):
    page.open("#4x4/ababab")
    page.wait(lambda: "b3?" in page.text("list"), "a mistake that is marked")
    page.open("#7x6/eefddgbfadfeaafcebdfbbgdcefe")
    page.wait(lambda: "proved" in page.head("b") and page.text("known").count("lemma") == 5, "all values")
    page.wait(lambda: page.run("return document.querySelectorAll('#graph circle').length") >= 12, "the graph")
    page.shoot("game")


def one_side(page):
    """A plan of Black's shows that White doesn't win, before and while a value is searched."""
    page.open("#7x6/ab")
    page.wait(
        lambda: "White doesn't win (proved)" in page.text("value") or "(proved by" in page.text("value"), "a claim"
    )
    page.shoot("one-side")
    page.push("stop")


def hints(page):
    page.open("#4x4/ababa")
    page.push("values")
    page.push("hint")
    page.wait_for("status", "Hint: a4 draws")
    assert "#009e73" in page.run("return document.querySelector('#board').innerHTML")
    assert page.head("a") == ""
    page.shoot("hint")
    page.push("values")


def stopping(page):
    """What is under way is said, and is stopped."""
    page.open("#10x10/-")
    page.wait_for("since", "since 1 s")
    page.shoot("working")
    page.push("stop")
    page.wait(lambda: page.run("return document.getElementById('work').hidden"), "an end")
    page.wait_for("status", "Stopped.")
    page.shoot("stopped")


def perfect_engine(page):
    page.open("#4x4/dadccc")
    page.choose("by", "engine-4")
    page.wait_for("status", "You have White")
    page.click("a")
    page.wait_for("status", "a2 was answered by c4 (searched)")
    page.wait_at("#4x4/dadcccac")


def threat(page):
    page.open("#4x4/dccbbdbaddc")
    page.choose("by", "threat")
    page.wait_for("status", "You have Black")
    page.click("c")
    page.wait_for("status", "c4 was answered by b4")
    page.click("a")
    page.wait_for("value", "White has four in a line")


def proof_of_a_position(page):
    page.open("#4x4/dccbbdbbddcc")
    page.choose("by", "proof")
    page.wait_for("status", "White plays a1")
    page.click("a")
    page.wait_for("status", "a2 was answered by a3")
    page.wait_for("value", "White has four in a line")


def two_tabs(page):
    """A hard question doesn't hold up another page."""
    page.open("#7x6/-")
    page.wait_for("since", "Searching")
    first = page.browser.current_window_handle
    page.browser.switch_to.new_window("tab")
    page.open("#4x4/ababa")
    page.wait_for("value", "A draw (proved by ")
    page.shoot("tab")
    page.browser.close()
    page.browser.switch_to.window(first)


def gone(page):
    """A server that is gone is told, with how it is started again."""
    page.open("#4x4/ab")
    page.wait_for("value", "draw")
    page.browser.execute_cdp_cmd("Network.enable", {})
    nothing = {"offline": True, "latency": 0, "downloadThroughput": -1, "uploadThroughput": -1}
    page.browser.execute_cdp_cmd("Network.emulateNetworkConditions", nothing)
    page.press("c")
    page.wait_for("status", "The program behind this page isn't there any more. Start it again in a terminal (")
    assert " board " in page.text("status"), page.text("status")
    page.shoot("gone")
    page.browser.execute_cdp_cmd("Network.emulateNetworkConditions", {**nothing, "offline": False})


BOTH = (
    game_by_the_proof,
    game_that_does_not_lose,
    game_by_a_plan,
    game_to_a_full_board,
    easy_opponents,
    bad_links,
    looks,
    pictures,
)
SERVED = (values, mistakes, one_side, hints, stopping, perfect_engine, threat, proof_of_a_position, two_tabs, gone)


def main():
    page = Page()
    steps = [*BOTH, *(SERVED if KIND == "served" else ())]
    try:
        for step in [step for step in steps if step.__name__ in NAMES] or steps:
            begin = time.monotonic()
            step(page)
            print(f"{step.__name__}: {time.monotonic() - begin:.1f} s", flush=True)
        for entry in page.browser.get_log("browser"):
            assert "Uncaught" not in entry["message"], entry
        print("browser: all was as expected")
    finally:
        page.browser.quit()


main()
