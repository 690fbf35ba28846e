"""The page in a browser: headless Chromium, by its driver. Left out where it is not there.

With the variable GDLSOLVE_PICTURES pictures of the page are put into the folder that it names.
"""

from __future__ import annotations

import importlib.util
import io
import json
import os
import re
import shutil
import sys
import tempfile
import threading
import time
import unittest
from collections.abc import Callable
from contextlib import redirect_stderr
from http.server import BaseHTTPRequestHandler, ThreadingHTTPServer
from pathlib import Path
from typing import Any
from unittest.mock import patch

from gdlsolve.manager.archive import Archive, Game
from gdlsolve.manager.schedule import Pairing
from gdlsolve.manager.serve import server as match_server
from gdlsolve.manager.serve.fair import Meeting
from gdlsolve.manager.serve.hall import Hall, Terms
from gdlsolve.manager.serve.store import Store
from gdlsolve.manager.standings import Judge
from gdlsolve.page.desk import Desk
from gdlsolve.page.matches import Matches
from gdlsolve.page.server import QUESTIONS, Server
from gdlsolve.solver.engine import OWN_COMMAND, Pool
from tests import ENDLESS, ENDLESS_RULES, PROGRAM, TOP, needs_program
from tests.found import FOUND, LISTED
from tests.odd import Odd
from tests.serving import until

PICTURES = os.environ.get("GDLSOLVE_PICTURES", "")
# Where Debian puts the driver's package, for a Python that is not Debian's.
PACKAGES = "/usr/lib/python3/dist-packages"
CHROMIUM = shutil.which("chromium") or shutil.which("chromium-browser")
DRIVER = shutil.which("chromedriver")


def why_not() -> str:
    """Why there is no browser to test in; empty where there is one."""
    if not CHROMIUM or not DRIVER:
        return "there is no chromium, or no chromedriver"
    if importlib.util.find_spec("selenium") is None and Path(PACKAGES, "selenium").is_dir():
        sys.path.append(PACKAGES)
    if importlib.util.find_spec("selenium") is None:
        return "there is no selenium (python3-selenium)"
    return ""


MISSING = why_not()
# The contrast of each visible text with its ground, where it is under 4.5 (3 for large letters).
CONTRAST = """
const parse = (text) => (text.match(/[\\d.]+/g) || []).map(Number);
const light = ([r, g, b]) => {
  const part = (v) => { v /= 255; return v <= .03928 ? v / 12.92 : ((v + .055) / 1.055) ** 2.4; };
  return .2126 * part(r) + .7152 * part(g) + .0722 * part(b);
};
const ground = (element) => {
  for (let at = element; at; at = at.parentElement) {
    const colour = parse(getComputedStyle(at).backgroundColor);
    if (colour.length === 3 || colour[3] > .9) return colour;
  }
  return [255, 255, 255];
};
const found = [];
const walker = document.createTreeWalker(document.body, NodeFilter.SHOW_TEXT);
while (walker.nextNode()) {
  const element = walker.currentNode.parentElement;
  if (!walker.currentNode.data.trim() || !element.checkVisibility()) continue;
  if (element.closest("script, option, .unseen, :disabled")) continue;
  const style = getComputedStyle(element);
  const [one, other] = [light(parse(style.color)), light(ground(element))].sort((a, b) => b - a);
  const ratio = (one + .05) / (other + .05);
  if (ratio < (parseFloat(style.fontSize) >= 24 ? 3 : 4.5)) {
    found.push(`${walker.currentNode.data.trim()}: ${ratio.toFixed(2)}`);
  }
}
return found;
"""
# What a screen reader would find without a name.
NAMELESS = """
const named = (element) => element.getAttribute("aria-label") || element.labels?.length
  || element.getAttribute("aria-labelledby") || element.textContent.trim();
const field = (element) => /SELECT|TEXTAREA|INPUT/.test(element.tagName);
const kinds = "button, a[href], input, textarea, select, [role=tree], progress";
return [...document.querySelectorAll(kinds)].filter((each) => !named(each)
  || (field(each) && !each.getAttribute("aria-label") && !each.labels?.length))
  .map((each) => each.outerHTML.slice(0, 80));
"""
# Notes each time that the table of moves changes which moves are marked as best, and what all are worth.
MARKS = """
window.marks = [];
new MutationObserver(() => {
  const rows = [...document.querySelectorAll("#rows tr")];
  window.marks.push(rows.map((row) => [row.dataset.move, row.classList.contains("best"), row.children[1].textContent]));
}).observe(document, { subtree: true, childList: true, attributes: true, characterData: true });
"""
# Drops a file on the page: its name, and its text or how many bytes it has.
DROP = """
const [name, text] = arguments;
const data = new DataTransfer();
data.items.add(new File([typeof text === "number" ? new Uint8Array(text).fill(32) : text], name));
for (const type of ["dragover", "drop"]) {
  document.body.dispatchEvent(new DragEvent(type, { dataTransfer: data, bubbles: true, cancelable: true }));
}
"""
# What a page of another origin may try, each with what came of it.
STRANGER = """
const [base, done] = arguments;
const place = `${base}/api/open`;
const question = '{"text": "(role a)"}';
const tried = async (work) => { try { return await work(); } catch (fault) { return "refused"; } };
const post = async (kind, mode) => {
  const response = await fetch(place, { method: "POST", mode, headers: { "Content-Type": kind }, body: question });
  return `${response.type} ${response.status}`;
};
const beacon = () => navigator.sendBeacon(place, new Blob([question], { type: "application/json" })) ? "sent" : "refused";
const make = (tag, properties) => Object.assign(document.createElement(tag), properties);
const loaded = (tag, file, more = {}) => new Promise((told) => {
  document.body.append(make(tag, { ...more, src: base + file, onload: () => told("loaded"), onerror: () => told("refused") }));
});
const form = () => new Promise((told) => {
  const frame = make("iframe", { name: "target" });
  const made = make("form", { method: "POST", enctype: "text/plain", action: place, target: "target" });
  // What the browser sends is JSON: {"text": "(role a)", "more": "="}
  made.append(make("input", { name: '{"text": "(role a)", "more": "', value: '"}' }));
  document.body.append(frame, made);
  frame.onload = () => told("sent");
  made.submit();
});
(async () => done({
  json: await tried(() => post("application/json", "cors")),
  text: await tried(() => post("text/plain", "no-cors")),
  beacon: await tried(beacon),
  form: await tried(form),
  read: await tried(() => fetch(`${base}/`).then((response) => response.text())),
  picture: await loaded("img", "/icon.svg"),
  script: await loaded("script", "/scripts/page.js"),
  module: await loaded("script", "/scripts/state.js", { type: "module" }),
}))();
"""


@unittest.skipIf(MISSING, f"the page is not tested in a browser: {MISSING}")
class Browser(unittest.TestCase):
    """Tests of one page in one browser."""

    browser: Any
    desk: Desk
    server: Server

    @classmethod
    def setUpClass(cls) -> None:
        from selenium import webdriver
        from selenium.webdriver.chrome.options import Options
        from selenium.webdriver.chrome.service import Service

        options: Any = Options()
        options.binary_location = CHROMIUM
        options.set_capability("goog:loggingPrefs", {"browser": "ALL"})
        for word in ("headless=new", "no-sandbox", "disable-gpu", "disable-dev-shm-usage"):
            options.add_argument(f"--{word}")
        options.add_argument("--window-size=1200,1000")
        room = tempfile.TemporaryDirectory()
        cls.addClassCleanup(room.cleanup)
        games = Path(room.name) / "games"
        shutil.copytree(TOP / "games", games)
        (games / f"{ENDLESS}.kif").write_text(ENDLESS_RULES)
        cls.desk = Desk(Pool(3), games)
        cls.addClassCleanup(cls.desk.close)
        cls.server = Server(cls.desk, 0)
        threading.Thread(target=cls.server.serve_forever, daemon=True).start()
        cls.addClassCleanup(cls.server.server_close)
        cls.addClassCleanup(cls.server.shutdown)
        cls.browser = webdriver.Chrome(service=Service(str(DRIVER)), options=options)
        cls.addClassCleanup(cls.browser.quit)

    def setUp(self) -> None:
        self.browser.get("about:blank")

    def tearDown(self) -> None:
        said = [line["message"] for line in self.browser.get_log("browser")]
        self.assertEqual([line for line in said if " 400 " not in line], [])

    def go(self, place: str) -> None:
        """Opens the page at a place, and looks for a second only."""
        port = self.server.server_address[1]
        self.browser.get(f"http://127.0.0.1:{port}/#{place}")
        self.wait(lambda: self.text("status"))
        self.pick("seconds", "1")

    def element(self, name: str) -> Any:
        return self.browser.find_element("id", name)

    def all(self, selector: str) -> list[Any]:
        return list(self.browser.find_elements("css selector", selector))

    def text(self, name: str) -> str:
        return str(self.element(name).text)

    def run_js(self, script: str, *given: Any) -> Any:
        return self.browser.execute_script(script, *given)

    def of_module(self, module: str, script: str, *given: Any) -> Any:
        """What a script gives in which `it` is a module of the page."""
        with_it = f"import('/scripts/{module}.js').then((it) => (() => {{ {script} }})())"
        ends = "(told) => done([told, '']), (fault) => done([null, String(fault)])"
        told, fault = self.browser.execute_async_script(f"const done = [...arguments].pop(); {with_it}.then({ends});", *given)
        self.assertEqual(fault, "")
        return told

    def pick(self, name: str, value: str) -> None:
        """Takes the option of a list."""
        self.element(name).find_element("css selector", f'option[value="{value}"]').click()

    def keys(self, *keys: str) -> None:
        """Presses keys where the focus is."""
        self.browser.switch_to.active_element.send_keys(*keys)

    def wait(self, test: Callable[[], Any], seconds: float = 120) -> None:
        """Waits until something is so. What changes while it is looked at is looked at again."""
        from selenium.common.exceptions import WebDriverException

        end = time.monotonic() + seconds
        while time.monotonic() < end:
            try:
                if test():
                    return
            except WebDriverException:
                pass
            time.sleep(0.1)
        self.fail(f"not so within {seconds} s; status: {self.text('status')!r}")

    def picture(self, name: str) -> None:
        """Puts a picture of the page into a folder, where one is asked for."""
        if not PICTURES:
            return
        sys.path.append(PACKAGES)
        from PIL import Image

        image = Image.open(io.BytesIO(self.browser.get_screenshot_as_png())).convert("RGB")
        small = image.quantize(128, dither=Image.Dither.NONE)
        small.save(Path(PICTURES, f"{name}.png"), optimize=True)

    def check_access(self) -> None:
        """Each control has a name, and each text can be read on its ground."""
        self.assertEqual(self.run_js(NAMELESS), [])
        for ground in ("dark", "light"):
            asked = {"name": "prefers-color-scheme", "value": ground}
            self.browser.execute_cdp_cmd("Emulation.setEmulatedMedia", {"features": [asked]})
            with self.subTest(ground=ground):
                self.assertEqual(self.run_js(CONTRAST), [])


class Play(Browser):
    def test_tic_tac_toe_is_played_to_its_end(self) -> None:
        self.go("game=tic_tac_toe")
        self.element("tell").click()
        self.pick("seconds", "60")
        for turn in (0, 2, 4, 6, 8):
            self.wait(lambda: "Your move" in self.text("status") or self.is_over())
            if self.is_over():
                break
            self.assertEqual(len(self.all("#list button")), turn + 1 if turn else 1)
            self.wait(lambda: self.all(".board button"))
            self.all(".board button")[0].click()
            self.wait(lambda: len(self.all("#list button")) > turn + 1)
        self.wait(self.is_over)
        goals = [int(goal.text) for goal in self.all(".goal b")]
        self.assertEqual(sum(goals), 100)
        self.assertGreaterEqual(goals[1], 50)
        self.check_access()
        self.element("undo").click()
        self.wait(lambda: "Your move" in self.text("status"))

    def is_over(self) -> bool:
        return "The game has ended" in self.text("status")

    def test_values_are_told_and_a_move_goes_to_the_next_turn(self) -> None:
        after = "((mark 1 1) noop) (noop (mark 2 2)) ((mark 3 3) noop) (noop (mark 1 2))"
        self.go(f"game=tic_tac_toe&you=xplayer&after={after}")
        self.pick("seconds", "60")
        self.wait(lambda: "settled" in self.text("looked"))
        best = [row.get_dom_attribute("data-move") for row in self.all("#rows tr.best")]
        self.assertEqual(best, ["(mark 3 2)"])
        self.check_access()
        self.picture("play")
        self.all("#tree [role=treeitem]")[0].send_keys("*")
        self.wait(lambda: len(self.all("#tree > [role=treeitem]")) == 5)
        self.all("#rows tr.best button")[0].click()
        self.wait(lambda: "Turn 6" in self.text("status") or self.is_over())

    def test_a_move_is_best_only_where_all_were_looked_at(self) -> None:
        on_each_page = self.browser.execute_cdp_cmd("Page.addScriptToEvaluateOnNewDocument", {"source": MARKS})
        self.addCleanup(self.browser.execute_cdp_cmd, "Page.removeScriptToEvaluateOnNewDocument", on_each_page)
        after = "((mark 1 1) noop) (noop (mark 2 2)) ((mark 3 3) noop) (noop (mark 1 2))"
        self.browser.get(f"http://127.0.0.1:{self.server.server_address[1]}/#game=tic_tac_toe&you=xplayer&after={after}")
        self.wait(lambda: self.text("status"))
        self.pick("seconds", "60")
        self.wait(lambda: "settled" in self.text("looked"))
        marked = [rows for rows in self.run_js("return window.marks") if any(best for _, best, _ in rows)]
        self.assertTrue(marked)
        for rows in marked:
            # All other moves lose.
            self.assertEqual([move for move, best, _ in rows if best], ["(mark 3 2)"])
            self.assertEqual([move for move, _, worth in rows if not worth or "…" in worth], [])

    def test_what_was_looked_at_less_deep_stands_in_the_way_of_a_best_move(self) -> None:
        self.go("game=matching_pennies&you=a,b")
        self.element("tell").click()
        self.wait(lambda: len(self.all("#rows button")) == 2)
        for bounds, best in (
            ([(0, 0, 2), (0, 100, 0)], []),
            ([(50, 100, 2), (0, 100, 1)], []),
            ([(50, 100, 2), (0, 100, 2)], ["h"]),
            ([(0, 0, 1), (0, 100, 2)], ["t"]),
            ([(100, 100, 2), (0, 100, 0)], ["h"]),
            ([(40, 40, 1), (0, 40, 3)], ["h"]),
            ([(40, 40, 1), (40, 40, 3)], []),
        ):
            moves = [{"move": move, "low": low, "high": high, "depth": depth, "line": [["h", "t"]]}
                     for move, (low, high, depth) in zip("ht", bounds)]
            self.of_module("moves", "it.drawWorth({ moves: arguments[0], depth: 3, seconds: 1 })", moves)
            with self.subTest(bounds=bounds):
                self.assertEqual([row.get_dom_attribute("data-move") for row in self.all("#rows tr.best")], best)

    def test_the_best_moves_have_their_lines_in_order(self) -> None:
        self.go("game=four_moves")
        self.pick("seconds", "60")
        self.wait(lambda: "settled" in self.text("looked"))
        self.wait(lambda: len(self.all("#lines-list li")) == 3)
        told = [item.text.split("\n")[0] for item in self.all("#lines-list li")]
        self.assertEqual(told, ["y 70 settled 1 turn ahead", "z 70 settled 1 turn ahead", "x 40 settled 1 turn ahead"])
        self.assertEqual(self.all("#lines-list .line")[0].text, "1 y")
        want = r"The first 3 of 4 moves of a, by what they are worth: looked 1 turn ahead in \d+\.\d seconds\."
        self.assertRegex(self.text("lines-told"), want)
        self.check_access()

    def test_no_move_is_ranked_before_all_were_looked_at(self) -> None:
        self.go("game=matching_pennies&you=a,b")
        self.wait(lambda: len(self.all("#rows button")) == 2)
        self.element("tell").click()
        for bounds, order in (
            ([(0, 0, 2), (0, 100, 0)], []),
            ([(50, 100, 2), (0, 100, 1)], []),
            ([(0, 100, 2), (50, 100, 2)], ["t", "h"]),
            ([(50, 50, 1), (50, 100, 2)], ["t", "h"]),
        ):
            moves = [{"move": move, "low": low, "high": high, "depth": depth, "line": [["h", "t"]]}
                     for move, (low, high, depth) in zip("ht", bounds)]
            self.of_module("lines", "it.drawLines({ moves: arguments[0], depth: 2, seconds: 1 })", moves)
            with self.subTest(bounds=bounds):
                self.assertEqual([each.text for each in self.all("#lines-list .move") if each.is_displayed()], order)

    def graph(self) -> list[str]:
        """What the graph says of each turn."""
        found: list[str] = self.run_js("return [...document.querySelectorAll('#graph .place title')].map((each) => each.textContent)")
        return found

    def test_the_worth_of_a_match_is_drawn_turn_by_turn(self) -> None:
        after = "((mark 1 1) noop) (noop (mark 2 2)) ((mark 3 3) noop) (noop (mark 1 2))"
        self.go(f"game=tic_tac_toe&you=xplayer,oplayer&after={after}")
        self.pick("seconds", "60")
        self.wait(lambda: "settled" in self.text("looked"))
        self.wait(lambda: self.graph() == ["start: not looked at", *(f"turn {number}: not looked at" for number in (1, 2, 3)), "turn 4: 50 settled"])
        self.assertEqual((len(self.all("#graph .point")), len(self.all("#graph .settled"))), (1, 0))
        self.element("back").click()
        self.element("back").click()
        # Nobody else has a choice at a turn of xplayer: so what is behind each of its moves is known too.
        self.wait(lambda: self.graph()[2:] == ["turn 2: 50 settled", "turn 3: 50 settled", "turn 4: 50 settled"])
        self.assertEqual(len(self.all("#graph .settled")), 2)
        self.check_access()
        self.assertEqual(self.all("#graph svg")[0].get_dom_attribute("aria-label"),
                         "What the match is worth to xplayer: turn 2 50 settled, turn 3 50 settled, turn 4 50 settled")
        self.all("#graph .place")[4].click()
        self.wait(lambda: self.text("status").startswith("Turn 4: oplayer (mark 1 2)."))

    def test_bounds_are_drawn_as_a_band_and_an_end_as_what_it_is_worth(self) -> None:
        self.go("game=matching_pennies&you=a,b&after=(h h)")
        self.wait(lambda: self.graph() == ["start: not looked at", "turn 1: 100 settled"])
        note = "it.noteWorth('a', [], [{ move: 'h', low: 20, high: 90, depth: 3, line: [['h', 'h']] }]); it.drawGraph();"
        self.of_module("graph", note)
        self.assertEqual(self.graph(), ["start: 20 to 90 within 3 turns", "turn 1: 100 settled"])
        self.assertEqual([len(self.all(f"#graph .{kind}")) for kind in ("band", "bounds", "point")], [1, 1, 1])
        self.element("tell").click()
        self.element("first").click()
        self.pick("subject", "b")
        self.wait(lambda: self.graph() == ["start: not looked at", "turn 1: 0 settled"])

    def test_a_hint_marks_the_best_move_and_does_not_play_it(self) -> None:
        after = "((mark 1 1) noop) (noop (mark 2 2)) ((mark 3 3) noop) (noop (mark 1 2))"
        self.go(f"game=tic_tac_toe&you=xplayer&after={after}")
        self.element("tell").click()
        self.pick("seconds", "60")
        self.assertFalse(self.element("hint-told").is_displayed())
        self.element("hint").click()
        self.wait(lambda: self.text("hint-told") == "Hint: (mark 3 2) is best: 50 to xplayer, settled.")
        self.assertEqual([row.get_dom_attribute("data-move") for row in self.all("#rows tr.hint")], ["(mark 3 2)"])
        self.assertEqual([cell.get_dom_attribute("data-at") for cell in self.all(".board td.hinted")], ["2 3"])
        # Nothing else is told, and nothing is played.
        self.assertEqual([row for row in self.all("#rows .worth") if row.text], [])
        self.assertEqual(len(self.all("#list button")), 5)
        self.check_access()
        self.all("#rows tr.hint button")[0].click()
        self.wait(lambda: not self.all("#rows tr.hint") and not self.element("hint-told").is_displayed())

    def test_a_hint_says_what_is_not_settled(self) -> None:
        self.go("game=matching_pennies&you=a,b")
        self.element("tell").click()
        self.wait(lambda: len(self.all("#rows button")) == 2)
        for bounds, text, marked in (
            ([(0, 0, 2), (0, 100, 0)], "No best move is known yet.", []),
            ([(50, 100, 2), (0, 100, 1)], "No best move is known yet.", []),
            ([(50, 100, 2), (0, 100, 2)], "Hint: h is best as far as 2 turns ahead: 50 to 100 to a, not settled.", ["h"]),
            ([(50, 50, 2), (0, 100, 3)], "Hint: h is best as far as 3 turns ahead: 50 to a, not settled.", ["h"]),
            ([(100, 100, 2), (0, 100, 0)], "Hint: h is best: 100 to a, settled.", ["h"]),
            ([(40, 40, 1), (40, 40, 3)], "Hint: no move is better than another: each is worth 40 to a, settled.", []),
        ):
            moves = [{"move": move, "low": low, "high": high, "depth": depth, "line": [["h", "t"]]}
                     for move, (low, high, depth) in zip("ht", bounds)]
            self.of_module("state", "Object.assign(it.now, { told: { moves: arguments[0] }, hinted: true })", moves)
            self.of_module("hint", "it.drawHint()")
            with self.subTest(bounds=bounds):
                self.assertEqual(self.text("hint-told"), text)
                self.assertEqual([row.get_dom_attribute("data-move") for row in self.all("#rows tr.hint")], marked)

    def test_the_board_is_flipped_and_the_address_keeps_it(self) -> None:
        self.go("game=tic_tac_toe&you=xplayer,oplayer&after=((mark 1 3) noop)")
        self.wait(lambda: len(self.all(".board button")) == 8)
        corner = ".board tr:first-child td:last-of-type"
        self.assertIn("✕", self.all(corner)[0].text)
        self.browser.find_element("tag name", "body").send_keys("f")
        self.wait(lambda: [cell for cell in self.all(".board tr:nth-child(3) td")[:1] if "✕" in cell.text])
        self.assertEqual([head.text for head in self.all(".board th[scope=col]")], ["3", "2", "1"])
        self.assertIn("flip=1", self.run_js("return location.hash"))
        # The arrows go as one sees it.
        self.run_js("document.querySelector('.board button').focus()")
        self.keys("\ue014")
        name = self.run_js("return document.activeElement.getAttribute('aria-label')")
        self.assertEqual(name, "column 2, row 3: empty; play (mark 3 2)")
        self.run_js("location.reload()")
        self.wait(lambda: [cell for cell in self.all(".board tr:nth-child(3) td")[:1] if "✕" in cell.text])
        self.element("flip").click()
        self.wait(lambda: [cell for cell in self.all(corner) if "✕" in cell.text])
        self.assertNotIn("flip", self.run_js("return location.hash"))

    def test_what_the_last_turn_has_changed_is_marked(self) -> None:
        self.go("game=tic_tac_toe&you=xplayer,oplayer")
        self.wait(lambda: len(self.all(".board button")) == 9)
        self.all(".board button")[4].click()
        self.wait(lambda: [cell.get_dom_attribute("data-at") for cell in self.all(".board td.fresh")] == ["2 2"])
        self.element("undo").click()
        self.wait(lambda: len(self.all(".board button")) == 9 and not self.all(".board td.fresh"))

    def test_a_move_that_is_pressed_twice_is_one_turn(self) -> None:
        self.go("game=tic_tac_toe&you=xplayer,oplayer")
        self.wait(lambda: len(self.all("#rows button")) == 9)
        self.run_js("""
            const [one, other] = document.querySelectorAll('#rows button');
            one.click();
            one.click();
            other.click();
            document.getElementById('seconds').dispatchEvent(new Event('change'));
        """)
        self.wait(lambda: "Your move, oplayer" in self.text("status"))
        time.sleep(0.5)
        self.assertTrue(self.text("status").startswith("Turn 1: xplayer (mark 1 1)."))
        self.assertEqual(len(self.all("#rows button")), 8)

    def test_two_roles_at_once_are_both_asked(self) -> None:
        self.go("game=matching_pennies&you=a,b")
        self.wait(lambda: "Your move, a" in self.text("status"))
        self.all("#rows button")[0].click()
        self.wait(lambda: "Your move, b" in self.text("status"))
        self.all("#rows button")[1].click()
        self.wait(self.is_over)
        self.assertEqual([goal.text for goal in self.all(".goal b")], ["0", "100"])

    def test_roles_may_have_names_that_scripts_use(self) -> None:
        rules = (TOP / "games/matching_pennies.kif").read_text()
        for old, new in ("a", "constructor"), ("b", "__proto__"):
            rules = re.sub(rf"(?<=[( ]){old}(?=[) ])", new, rules)
        self.go("game=nim")
        self.element("write").click()
        self.run_js("arguments[0].value = arguments[1]", self.element("text"), rules)
        self.element("open").click()
        self.wait(lambda: "Your move, constructor" in self.text("status"))
        self.pick("seat-__proto__", "you")
        self.wait(lambda: not self.of_module("state", "return it.now.awaited"))
        self.all("#rows button")[0].click()
        self.wait(lambda: "Your move, __proto__" in self.text("status"))
        self.all("#rows button")[1].click()
        self.wait(lambda: "The game has ended: constructor 0, __proto__ 100." in self.text("status"))

    def test_the_keyboard_is_enough(self) -> None:
        self.go("game=tic_tac_toe&you=xplayer,oplayer")
        self.wait(lambda: len(self.all(".board button")) == 9)
        self.run_js("document.querySelector('.board button').focus()")
        self.keys("\ue015")
        self.keys("\ue014")
        name = self.run_js("return document.activeElement.getAttribute('aria-label')")
        self.assertEqual(name, "column 2, row 2: empty; play (mark 2 2)")
        self.keys("\ue007")
        self.wait(lambda: "Your move, oplayer" in self.text("status"))
        self.browser.find_element("tag name", "body").send_keys(",")
        self.wait(lambda: not self.text("status").startswith("Turn"))
        self.browser.find_element("tag name", "body").send_keys(".")
        self.wait(lambda: self.text("status").startswith("Turn 1: xplayer (mark 2 2)."))


class Strangers(Browser):
    def test_a_page_of_another_origin_starts_nothing(self) -> None:
        class Page(BaseHTTPRequestHandler):
            """A page of another origin: another port is one."""

            def do_GET(self) -> None:
                self.send_response(200)
                self.send_header("Content-Type", "text/html")
                self.end_headers()
                self.wfile.write(b"<!doctype html><title>another</title><body></body>")

            def log_message(self, *words: Any) -> None:
                """Says nothing."""

        other = ThreadingHTTPServer(("127.0.0.1", 0), Page)
        threading.Thread(target=other.serve_forever, daemon=True).start()
        self.addCleanup(other.server_close)
        self.addCleanup(other.shutdown)
        self.browser.set_script_timeout(60)
        opened: list[dict[str, Any]] = []

        def note(desk: Desk, told: dict[str, Any]) -> dict[str, Any]:
            opened.append(told)
            return {}

        with patch.dict(QUESTIONS, {"/api/open": note}):
            for host in "127.0.0.1", "localhost":
                with self.subTest(host=host):
                    self.browser.get(f"http://{host}:{other.server_address[1]}/")
                    base = f"http://127.0.0.1:{self.server.server_address[1]}"
                    told = self.browser.execute_async_script(STRANGER, base)
                    # These are sent blindly, and nothing is told of what came of them.
                    self.assertEqual(told, {**dict.fromkeys(told, "refused"), "form": "sent", "beacon": "sent"})
        self.assertEqual(opened, [])
        self.browser.get_log("browser")


class Long(Browser):
    def test_a_narrow_page_does_not_go_sideways(self) -> None:
        narrow = {"width": 360, "height": 740, "deviceScaleFactor": 1, "mobile": False}
        self.browser.execute_cdp_cmd("Emulation.setDeviceMetricsOverride", narrow)
        self.addCleanup(self.browser.execute_cdp_cmd, "Emulation.clearDeviceMetricsOverride", {})
        for name in "tic_tac_toe", "river", ENDLESS:
            with self.subTest(name=name):
                self.browser.get("about:blank")
                self.browser.get(f"http://127.0.0.1:{self.server.server_address[1]}/#game={name}")
                self.wait(lambda: self.text("status"))
                self.pick("seconds", "60")
                self.wait(lambda: self.all("#rows .bar"))
                self.assertLessEqual(self.run_js("return document.documentElement.scrollWidth"), 360)

    def test_moves_stand_below_the_board_and_above_the_fold_of_a_phone(self) -> None:
        phone = {"width": 360, "height": 740, "deviceScaleFactor": 1, "mobile": False}
        self.browser.execute_cdp_cmd("Emulation.setDeviceMetricsOverride", phone)
        self.addCleanup(self.browser.execute_cdp_cmd, "Emulation.clearDeviceMetricsOverride", {})
        ends = "const { top, bottom } = document.querySelector(arguments[0]).getBoundingClientRect(); return [top, bottom]"
        beyond = "const { scrollWidth, clientWidth } = document.getElementById('boards'); return scrollWidth - clientWidth"
        for name in "tic_tac_toe", "hexapawn", "connect_four_5x4", ENDLESS:
            with self.subTest(name=name):
                self.browser.get("about:blank")
                self.browser.get(f"http://127.0.0.1:{self.server.server_address[1]}/#game={name}")
                self.wait(lambda: self.text("status"))
                self.pick("seconds", "60")
                self.wait(lambda: self.all("#rows .bar"))
                board, move = self.run_js(ends, "#boards"), self.run_js(ends, "#rows button")
                self.assertLess(board[1], move[0])
                self.assertLessEqual(move[1], 740)
                # All of the board is there without going sideways.
                self.assertEqual(self.run_js(beyond), 0)

    def test_a_long_look_is_cancelled(self) -> None:
        self.go(f"game={ENDLESS}")
        self.pick("seconds", "")
        self.wait(lambda: "turns ahead" in self.text("looked"))
        self.assertTrue(self.element("stop").is_enabled())
        self.picture("look")
        self.element("stop").click()
        self.wait(lambda: "Stopped" in self.text("looked"), 20)
        self.assertFalse(self.element("stop").is_enabled())
        self.pick("subject", "black")
        self.wait(lambda: "Moves of black" in self.text("moves-title"))

    def test_a_page_that_is_left_gives_up_its_look(self) -> None:
        self.go(f"game={ENDLESS}")
        self.pick("seconds", "")
        at_work = self.desk.sessions.children.at_work
        self.wait(lambda: "turns ahead" in self.text("looked") and at_work)
        self.browser.get("about:blank")
        self.assertTrue(until(lambda: not at_work, 10))

    def test_the_solver_moves_now_when_it_is_told_to(self) -> None:
        self.go(f"game={ENDLESS}&you=none")
        self.wait(lambda: len(self.all("#list button")) > 1)
        self.pick("seat-black", "you")
        self.pick("seconds", "60")
        self.wait(lambda: "Your move, black" in self.text("status"))
        self.all("#rows button")[0].click()
        self.wait(lambda: self.text("stop") == "Move now")
        turns = len(self.all("#list button"))
        self.keys("\ue00c")
        self.wait(lambda: len(self.all("#list button")) == turns + 1, 40)


    def test_a_solver_that_has_to_move_before_it_knows_anything_makes_any_move(self) -> None:
        self.go("game=nim&you=first,second")
        self.wait(lambda: len(self.all("#rows button")) == 7)
        self.wait(lambda: ": " in self.text("looked"))
        self.run_js("Math.random = () => 0.99;")
        ended = {"version": 0, "depth": 0, "ended": "stopped", "why": "", "best": None, "moves": []}
        with patch.dict(QUESTIONS, {"/api/choose": lambda desk, told: {"look": 0}}), patch.object(Desk, "news", lambda *_: ended):
            self.pick("seat-first", "solver")
            self.wait(lambda: self.text("status").startswith("Turn 1: first (take c 4)."))


class Texts(Browser):
    def put(self, name: str, text: str) -> None:
        """Puts a text into a field."""
        self.run_js("arguments[0].value = arguments[1]", self.element(name), text)

    def test_a_refusal_is_shown_at_its_line_and_mended(self) -> None:
        self.go("game=tic_tac_toe")
        self.element("write").click()
        good = "(true (control oplayer)))"
        rules = (TOP / "games/tic_tac_toe.kif").read_text()
        bad = rules.replace(f"(next (control xplayer)) {good}", f"(next (control ?who)) {good}")
        self.put("text", bad)
        self.element("open").click()
        self.wait(lambda: self.element("refusal").is_displayed())
        self.assertIn("refused G3 Unsafe 26", self.text("refusal-told"))
        self.assertIn("?who", self.all("#refusal-text .at")[0].text)
        self.assertFalse(self.element("game").is_displayed())
        self.check_access()
        self.picture("refusal")
        self.element("mend").click()
        start = self.run_js("return document.activeElement.selectionStart")
        self.assertIn(bad[:start].count("\n"), range(21, 24))
        self.put("text", rules)
        self.element("open").click()
        self.wait(lambda: "Your move" in self.text("status"))
        self.assertFalse(self.element("refusal").is_displayed())

    def test_a_file_is_opened_by_the_button(self) -> None:
        self.go("game=tic_tac_toe")
        self.element("kif").send_keys(str(TOP / "games/matching_pennies.kif"))
        self.wait(lambda: self.text("title") == "matching pennies (a file)" and "Your move, a" in self.text("status"))
        self.assertFalse(self.element("rules").is_displayed())
        self.check_access()

    def test_a_file_that_is_dropped_is_opened_by_its_name(self) -> None:
        self.go("game=tic_tac_toe")
        self.run_js(DROP, "my_coins.kif", (TOP / "games/matching_pennies.kif").read_text())
        self.wait(lambda: self.text("title") == "my coins" and "Your move, a" in self.text("status"))
        self.assertEqual(self.run_js("return location.hash"), "")
        self.run_js(DROP, "broken.kif", "(role a)\n(base p")
        self.wait(lambda: self.element("refusal").is_displayed())
        self.assertIn("refused K4 Unclosed 9", self.text("refusal-told"))

    def test_a_file_that_is_too_long_or_no_text_is_refused(self) -> None:
        self.go("game=tic_tac_toe")
        for name, text, want in (
            ("long.kif", (1 << 20) + 1, "long.kif has 1,048,577 bytes, and rules have at most 1,048,576."),
            ("picture.kif", "\x89PNG\0", "picture.kif is no text."),
        ):
            self.run_js(DROP, name, text)
            self.wait(lambda: self.text("status") == want)
        self.assertEqual(self.text("title"), "tic tac toe")
        self.assertTrue(self.element("game").is_displayed())

    def go_by_program(self, address: str) -> None:
        """Opens the page where the program answers, as the library writes nothing out."""
        pool = Pool(2, [*OWN_COMMAND, *PROGRAM])
        self.addCleanup(pool.close)
        instead = patch.object(self.desk, "pool", pool)
        instead.start()
        self.addCleanup(instead.stop)
        self.go(address)

    @needs_program
    def test_a_file_as_games_are_found_is_written_out_by_itself(self) -> None:
        self.go_by_program("game=tic_tac_toe")
        self.run_js(DROP, "five.kif", FOUND)
        self.wait(lambda: self.text("title") == "five" and "Your move, one" in self.text("status"))
        self.assertIn("written out", self.text("notes"))

    @needs_program
    def test_a_game_as_games_are_found_is_written_out_and_played(self) -> None:
        self.go_by_program("game=tic_tac_toe")
        self.element("write").click()
        self.put("text", FOUND)
        self.element("open").click()
        self.wait(lambda: self.element("whole").is_displayed())
        self.assertIn("refused G4 Recursive 9", self.text("refusal-told"))
        self.check_access()
        self.element("whole").click()
        self.wait(lambda: "Your move, one" in self.text("status"))
        self.assertIn("written out", self.text("notes"))
        self.assertFalse(self.element("whole-too").is_displayed())
        self.element("write").click()
        self.put("text", LISTED)
        self.element("open").click()
        self.wait(lambda: self.element("whole-too").is_displayed())
        self.check_access()
        self.element("whole-too").click()
        self.wait(lambda: not self.element("whole-too").is_displayed() and len(self.all("#rows button")) == 2)
        self.assertIn("Your move, one", self.text("status"))

    def kept(self) -> list[dict[str, Any]]:
        """The matches that the browser keeps."""
        found: list[dict[str, Any]] = json.loads(self.run_js("return localStorage.getItem('gdlsolve.matches') || '[]'"))
        return found

    def test_a_match_is_kept_opened_again_and_removed(self) -> None:
        self.go("game=tic_tac_toe&you=xplayer,oplayer&flip=1&after=((mark 2 2) noop) (noop (mark 1 1))")
        self.run_js("localStorage.clear()")
        self.element("saved").click()
        self.assertEqual(self.text("saves-told"), "None yet.")
        self.element("save-name").send_keys("a corner")
        self.element("keep").click()
        self.wait(lambda: self.text("saves-told") == "a corner is kept.")
        [match] = self.kept()
        self.assertEqual((match["name"], match["game"], len(match["turns"])), ("a corner", "tic_tac_toe", 2))
        self.assertIn("tic tac toe, 2 turns, ", self.text("saves-list"))
        self.check_access()
        self.go("game=nim")
        self.wait(lambda: self.text("title") == "nim")
        self.element("saved").click()
        self.all("#saves-list button")[0].click()
        self.wait(lambda: self.text("status").startswith("Turn 2: oplayer (mark 1 1). Your move, xplayer."))
        self.assertFalse(self.element("saves").is_displayed())
        self.assertIn("flip=1", self.run_js("return location.hash"))
        self.element("saved").click()
        self.all("#saves-list button.away")[0].click()
        self.wait(lambda: self.text("saves-told") == "a corner is removed.")
        self.assertEqual((self.kept(), self.all("#saves-list li")), ([], []))

    def test_a_match_over_rules_of_ones_own_is_kept_with_them(self) -> None:
        self.go("game=tic_tac_toe")
        self.run_js("localStorage.clear()")
        self.run_js(DROP, "my_coins.kif", (TOP / "games/matching_pennies.kif").read_text())
        self.wait(lambda: self.text("title") == "my coins" and len(self.all("#rows button")) == 2)
        self.element("saved").click()
        self.element("keep").click()
        self.wait(lambda: self.text("saves-told") == "my coins, 0 turns is kept.")
        self.go("game=nim")
        self.wait(lambda: self.text("title") == "nim")
        self.element("saved").click()
        self.all("#saves-list button")[0].click()
        self.wait(lambda: self.text("title") == "my coins" and len(self.all("#rows button")) == 2)

    def test_the_oldest_of_many_matches_goes_and_what_is_none_is_passed_over(self) -> None:
        self.go("game=nim")
        many = [{"name": f"m{number}", "game": "nim", "turns": [], "date": "2020-01-01"} for number in range(50)]
        self.run_js("localStorage.setItem('gdlsolve.matches', arguments[0])", json.dumps([{"name": 1}, *many]))
        self.element("saved").click()
        self.assertEqual(len(self.all("#saves-list li")), 50)
        self.element("keep").click()
        self.wait(lambda: self.text("saves-told") == "nim, 0 turns is kept.")
        self.assertEqual([match["name"] for match in self.kept()], ["nim, 0 turns", *(f"m{number}" for number in range(49))])
        self.run_js("localStorage.setItem('gdlsolve.matches', '{')")
        self.element("close-saves").click()
        self.element("saved").click()
        self.assertEqual(self.text("saves-told"), "None yet.")

    def test_a_browser_that_keeps_nothing_is_told_of(self) -> None:
        self.go("game=tic_tac_toe&you=xplayer,oplayer")
        self.run_js("Storage.prototype.setItem = () => { throw new Error('full'); };")
        self.element("saved").click()
        self.element("keep").click()
        self.wait(lambda: self.text("saves-told").startswith("The browser has no room for this match."))
        self.run_js("Object.defineProperty(window, 'localStorage', { get() { throw new Error('refused'); } });")
        self.element("close-saves").click()
        self.element("saved").click()
        self.assertEqual(self.text("saves-told"), "The browser keeps nothing for this page. A match can be saved as a record.")
        self.assertFalse(self.element("keep").is_enabled())
        self.element("close-saves").click()
        self.all("#rows button")[0].click()
        self.wait(lambda: "Your move, oplayer" in self.text("status"))

    def test_a_record_is_stepped_through(self) -> None:
        self.go("game=nim")
        self.element("load").click()
        self.put("record-text", '{"game": "matching_pennies", "moves": [["H", "t"]]}')
        self.element("take").click()
        self.wait(lambda: self.element("forward").is_enabled())
        self.element("forward").click()
        self.wait(lambda: "The game has ended: a 0, b 100" in self.text("status"))
        self.element("load").click()
        self.put("record-text", "((mark 1 1) noop)")
        self.element("take").click()
        self.wait(lambda: "does not fit" in self.text("record-fault"))

    def test_a_match_of_an_archive_is_stepped_through(self) -> None:
        self.go("game=nim")
        self.assertFalse(self.element("archive").is_displayed())
        self.browser.get("about:blank")
        with tempfile.TemporaryDirectory() as room, patch.object(self.desk, "matches", Matches(Path(room) / "archive")) as matches:
            assert matches.file is not None
            with Archive(matches.file, writes=True) as archive:
                rules = (TOP / "games/matching_pennies.kif").read_text()
                pairings = [Pairing(0, 0, ("ann", "bob"))]
                archive.add([Game("matching_pennies.kif", rules, ("a", "b"))], {"ann": "random", "bob": "random"}, pairings, "1")
                record = archive.begin(1, 1000, (1.0, 1.0)).record
                record.moves, record.errors, record.seconds = [["h", "t"]], [["", "late"]], [[0.1, 1.0]]
                record.state, record.isCompleted, record.goalValues = "ended", True, [0, 100]
                archive.note(1, record, {})
            self.go("game=nim")
            self.wait(lambda: "ann as a 0, bob as b 100" in self.text("matches"))
            self.assertIn("1 failed moves", self.text("matches"))
            self.check_access()
            self.all("#matches button")[0].click()
            self.wait(lambda: self.text("title") == "matching pennies" and self.element("forward").is_enabled())
            self.element("forward").click()
            self.wait(lambda: "The game has ended: a 0, b 100" in self.text("status"))

    def test_a_record_of_pasted_rules_has_the_rules(self) -> None:
        self.go("game=nim")
        rules = (TOP / "games/matching_pennies.kif").read_text()
        self.element("write").click()
        self.put("text", rules)
        self.element("open").click()
        self.wait(lambda: self.text("title") == "pasted")
        self.wait(lambda: len(self.all("#rows button")) == 2)
        # What is saved is kept here, in place of a file.
        self.run_js("URL.createObjectURL = (blob) => { blob.text().then((text) => { window.saved = text; }); return '#'; }")
        self.element("save").click()
        self.wait(lambda: self.run_js("return window.saved"))
        saved = self.run_js("return window.saved")
        self.assertEqual(json.loads(saved)["rules"], rules)
        self.browser.get("about:blank")
        self.go("game=nim")
        self.element("load").click()
        self.put("record-text", saved.replace('"moves": []', '"moves": [["h", "t"]]'))
        self.element("take").click()
        self.wait(lambda: self.text("title") == "pasted" and self.element("forward").is_enabled())

    def test_an_address_that_is_put_in_where_the_page_is_open_is_opened(self) -> None:
        self.go("game=nim")
        self.run_js("location.hash = 'game=matching_pennies&you=a,b&after=(h+t)'")
        self.wait(lambda: self.text("title") == "matching pennies" and "The game has ended: a 0, b 100" in self.text("status"))

    def test_an_address_of_a_game_that_is_not_there_is_told(self) -> None:
        self.browser.get(f"http://127.0.0.1:{self.server.server_address[1]}/#game=no_such_game")
        self.wait(lambda: "There is no game no_such_game in the folder." in self.text("status"))
        self.assertEqual(self.text("title"), "tic tac toe")

    def test_turns_of_an_address_that_cannot_be_played_are_dropped(self) -> None:
        port = self.server.server_address[1]
        self.browser.get(f"http://127.0.0.1:{port}/#game=matching_pennies&you=a,b&after=(h+x)")
        self.wait(lambda: "refused H2 NotLegal 1 b" in self.text("status"))
        self.assertTrue(self.element("game").is_displayed())
        self.assertEqual(len(self.all("#rows button")), 2)


class MatchServer(Browser):
    """The pages of the match server."""

    def setUp(self) -> None:
        super().setUp()
        room = tempfile.TemporaryDirectory()
        self.addCleanup(room.cleanup)
        rules = (TOP / "games/matching_pennies.kif").read_text()
        game = Game("matching_pennies.kif", rules, ("a", "b"))
        self.store = Store(Path(room.name) / "matches.sqlite")
        self.addCleanup(self.store.__exit__)
        judge = Judge()
        self.addCleanup(judge.__exit__)
        hall = Hall(self.store, judge, [game], Terms(1.0, 1.0, 1.0, 9, 1, "1"))
        for name in "ann", "bob":
            self.store.sign_up(name, f"http://{name}:1", name)
        record = self.store.begin(self.store.put_in(game, Meeting(game.sum, ("ann", "bob")), 0, "1"), (1.0, 1.0)).record
        record.moves, record.errors, record.seconds = [["h", "t"]], [["", f"not legal: <b>{'x' * 400}"]], [[0.1, 0.1]]
        record.states, record.stateTimes, record.goalValues, record.state, record.isCompleted = ["()"] * 2, [0] * 2, [0, 100], "ended", True
        with redirect_stderr(io.StringIO()):
            hall.count(1, record, {})
        hall.show()
        made = match_server.Server(self.store, hall, 0)
        threading.Thread(target=made.serve_forever, daemon=True).start()
        self.addCleanup(made.server_close)
        self.addCleanup(made.shutdown)
        self.port = made.server_address[1]

    def send(self, place: str, fields: dict[str, str], origin: str = "") -> str:
        """What the page says behind a form with these fields."""
        self.browser.get(f"{origin or f'http://127.0.0.1:{self.port}'}/players")
        for name, value in fields.items():
            self.all(f'form[action$="{place}"] [name={name}]')[0].send_keys(value)
        self.all(f'form[action$="{place}"] button')[0].click()
        self.wait(lambda: self.all("main p"))
        return str(self.all("main")[0].text)

    def test_a_player_signs_up_and_leaves_by_the_forms(self) -> None:
        odd = Odd(self, lambda text: "available")
        told = self.send("/players", {"name": "cid", "address": odd.url})
        token = re.search(r"Its token is (\S+)\.", told)
        assert token is not None
        self.assertEqual(self.store.here()["cid"], odd.url)
        self.assertIn("cid has left.", self.send("/leave", {"name": "cid", "token": token[1]}))
        self.assertEqual(list(self.store.here()), ["ann", "bob"])

    def test_each_page_is_read_on_a_phone_and_by_all(self) -> None:
        self.addCleanup(self.browser.set_window_size, 1200, 1000)
        for width in 1200, 500:
            self.browser.set_window_size(width, 900)
            for path in "/", "/matches", "/matches/1", "/games", "/players":
                self.browser.get(f"http://127.0.0.1:{self.port}{path}")
                with self.subTest(width=width, path=path):
                    self.check_access()
                    self.assertLessEqual(self.run_js("return document.documentElement.scrollWidth - innerWidth"), 0)
                    self.assertEqual(self.all("main b, script"), [])

    def test_the_form_of_another_page_is_not_heard(self) -> None:
        fields = '<input name="name"><input name="token"><button>x</button>'
        form = f'<main></main><form method="post" action="http://127.0.0.1:{self.port}/leave">{fields}</form>'

        class Handler(BaseHTTPRequestHandler):
            def do_GET(self) -> None:
                self.send_response(200)
                self.send_header("Content-Type", "text/html")
                self.end_headers()
                self.wfile.write(form.encode())

            def log_message(self, format: str, *words: Any) -> None:
                pass

        other = ThreadingHTTPServer(("127.0.0.1", 0), Handler)
        threading.Thread(target=other.serve_forever, daemon=True).start()
        self.addCleanup(other.server_close)
        self.addCleanup(other.shutdown)
        told = self.send("/leave", {"name": "ann", "token": "ann"}, f"http://127.0.0.1:{other.server_address[1]}")
        self.assertIn("This server answers its own page alone.", told)
        self.assertEqual([" 403 " in line["message"] for line in self.browser.get_log("browser")], [True])
        self.assertEqual(list(self.store.here()), ["ann", "bob"])


del Browser

if __name__ == "__main__":
    unittest.main()
