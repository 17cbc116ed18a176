"""The page of numalab picture --html in headless Chromium: keys and clicks move the slider, and the page describes each state.

These tests need Chromium (Debian's package `chromium`), and are skipped where there is none."""
import json
import os
import select
import shutil
import subprocess
import tempfile
import unittest

from support import ROOT, Case, run
from numalab import model
from numalab.translate import trace_from

CHROMIUM = shutil.which("chromium") or shutil.which("chromium-browser") or shutil.which("google-chrome")
MOST_WAIT = 20
MANY = """nodes 64x24
spawn a home 0
spawn b home 16
map a A 300
map b B 200 shared
write a A "a"
write b B "b"
move_pages a A[::2] to 40-63
look
"""
STATE = """JSON.stringify({told: document.getElementById("told").textContent, source: document.getElementById("source").className,
  captions: [...document.querySelectorAll("figcaption")].map(one => one.textContent), slider: document.getElementById("slider").value,
  hidden: [...document.querySelectorAll("figure")].filter(one => one.hidden).length,
  table: [...document.querySelectorAll("#table tr")].map(row => [...row.children].map(one => one.textContent)),
  says: document.getElementById("slider").getAttribute("aria-valuetext"), plot: document.getElementById("plot").getAttribute("aria-label")})"""


class Browser:
    """A headless browser that is driven through its debugging pipe: JSON messages that end with a zero byte."""

    def __init__(self, folder):
        here, theirs = os.pipe(), os.pipe()
        self.out, self.input, self.number, self.errors = here[1], os.fdopen(theirs[0], "rb", 0), 0, []
        words = [CHROMIUM, "--headless=new", "--no-sandbox", "--disable-gpu", "--remote-debugging-pipe", "--window-size=1200,900",
                 f"--user-data-dir={folder}", "about:blank"]

        def pipes():
            read_from, write_to = os.dup(here[0]), os.dup(theirs[1])
            os.dup2(read_from, 3)
            os.dup2(write_to, 4)

        self.process = subprocess.Popen(words, stdout=subprocess.DEVNULL, stderr=subprocess.DEVNULL, close_fds=False, preexec_fn=pipes)
        os.close(here[0])
        os.close(theirs[1])
        self.session = None
        target = self.ask("Target.createTarget", url="about:blank")["targetId"]
        self.session = self.ask("Target.attachToTarget", targetId=target, flatten=True)["sessionId"]
        self.ask("Page.enable")
        self.ask("Runtime.enable")

    def message(self):
        data = bytearray()
        while not data.endswith(b"\0"):
            part = self.input.read(1) if select.select([self.input], [], [], MOST_WAIT)[0] else b""
            if not part:
                raise RuntimeError("the browser has gone")
            data += part
        told = json.loads(data[:-1])
        if told.get("method") == "Runtime.exceptionThrown":
            self.errors.append(told["params"]["exceptionDetails"].get("exception", {}).get("description"))
        return told

    def ask(self, method, **params):
        """Sends a command, and waits for its answer."""
        self.number += 1
        session = {"sessionId": self.session} if self.session else {}
        os.write(self.out, json.dumps({"id": self.number, "method": method, "params": params, **session}).encode() + b"\0")
        while True:
            told = self.message()
            if told.get("id") == self.number:
                if "error" in told:
                    raise RuntimeError(told["error"]["message"])
                return told["result"]

    def open(self, path):
        self.ask("Page.navigate", url="file://" + path)
        while self.message().get("method") != "Page.loadEventFired":
            pass

    def value(self, script):
        return self.ask("Runtime.evaluate", expression=script, returnByValue=True)["result"].get("value")

    def state(self):
        return json.loads(self.value(STATE))

    def press(self, key, code=0):
        for kind in ("keyDown", "keyUp"):
            self.ask("Input.dispatchKeyEvent", type=kind, key=key, windowsVirtualKeyCode=code)

    def click(self, element):
        box = json.loads(self.value(f"JSON.stringify(document.getElementById('{element}').getBoundingClientRect())"))
        for kind in ("mousePressed", "mouseReleased"):
            self.ask("Input.dispatchMouseEvent", type=kind, x=box["x"] + box["width"] / 2, y=box["y"] + box["height"] / 2, button="left",
                     clickCount=1)

    def close(self):
        self.process.terminate()
        self.process.wait()
        os.close(self.out)
        self.input.close()


@unittest.skipUnless(CHROMIUM, "the page is not tested in a browser, as there is no Chromium: apt-get install chromium")
class Page(Case):
    """One browser for all tests, which each open a page."""

    @classmethod
    def setUpClass(cls):
        cls.folder = tempfile.mkdtemp()
        cls.browser = Browser(cls.folder)

    @classmethod
    def tearDownClass(cls):
        cls.browser.close()
        shutil.rmtree(cls.folder, ignore_errors=True)

    def page(self, name, *words):
        # A different name each time: a browser only scrolls to another step of the same one.
        out = os.path.join(self.there, f"page{len(os.listdir(self.there))}.html")
        status, _, err = run("picture", *words, "-o", out)
        self.assertEqual((status, err), (0, ""))
        self.browser.errors.clear()
        self.browser.open(out + name)
        self.addCleanup(lambda: self.assertEqual(self.browser.errors, []))
        return self.browser

    def example(self, name, at=""):
        return self.page(at, f"{ROOT}/examples/{name}.json", f"{ROOT}/examples/{name}.report")

    def test_slider(self):
        browser = self.example("three_pages", "#5")
        state = browser.state()
        self.assertIn("move_pages 1 3 entries flags MPOL_MF_MOVE   →   0 failed", state["told"])
        self.assertIn("pages and frames: 3 left, 3 arrived", state["told"])
        self.assertEqual((state["captions"], state["slider"], state["source"]), (["node 0: 0 of 4", "node 1: 3 of 4"], "6", "report"))
        self.assertEqual(state["table"][1:], [["0", "4", "0", "4", "3 0 1 2", "0", "0", "3", "0"], ["1", "4", "3", "1", "7", "3", "0", "0", "0"]])
        browser.press("ArrowLeft", 37)
        state = browser.state()
        self.assertEqual((state["captions"], state["source"]), (["node 0: 3 of 4", "node 1: 0 of 4"], "model"))
        self.assertEqual(state["says"], 'step 4: write 1 0x12000 "c"   →   ok')
        self.assertIn("1 new", state["told"])
        self.assertIn("after step 4, 3 of 8 frames are in use", state["plot"])

    def test_keys_and_buttons(self):
        browser = self.example("three_pages")
        self.assertEqual(browser.state()["slider"], "10")
        for press, wanted in [(lambda: browser.press("Home", 36), "0"), (lambda: browser.press("ArrowRight", 39), "1"),
                              (lambda: browser.press("PageDown", 34), "2"), (lambda: browser.press("]"), "6"),
                              (lambda: browser.press("["), "0"), (lambda: browser.click("look-on"), "6"), (lambda: browser.click("last"), "10"), (lambda: browser.click("back"), "9"),
                              (lambda: browser.click("first"), "0"), (lambda: browser.click("forward"), "1"),
                              (lambda: browser.click("slider"), "5")]:
            press()
            self.assertEqual(browser.state()["slider"], wanted)
        self.assertEqual(browser.value("document.getElementById('number').value"), "4")
        before = browser.state()["told"]
        browser.value("document.getElementById('slider').value = 3; document.getElementById('slider').dispatchEvent(new Event('input'))")
        self.assertNotEqual(browser.state()["told"], before)
        self.assertEqual(browser.state()["captions"], ["node 0: 1 of 4", "node 1: 0 of 4"])

    def test_all_the_same_backward(self):
        browser = self.example("while_pages_move", "#0")
        states = []
        for _ in range(20):
            states.append(browser.state())
            browser.press("ArrowRight", 39)
        for state in reversed(states):
            browser.value(f"show({state['slider']})")
            self.assertEqual(browser.state(), state)

    def choose(self, browser, element, value):
        browser.value(f"document.getElementById('{element}').value = '{value}'; document.getElementById('{element}').dispatchEvent(new Event('change'))")

    def test_filters(self):
        browser = self.example("shared_page", "#7")
        pixel = "document.querySelector('#nodes canvas').getContext('2d').getImageData(6, 25, 1, 1).data.join()"
        seen = {}
        for process in ("", "1", "3", ""):
            self.choose(browser, "process", process)
            seen.setdefault(process, set()).add(browser.value(pixel))
        self.assertEqual([len(one) for one in seen.values()], [1, 1, 1])
        self.assertEqual(seen[""], seen["1"])
        self.assertNotEqual(seen[""], seen["3"])
        for node, hidden in [("1", 1), ("", 0)]:
            self.choose(browser, "node", node)
            self.assertEqual(browser.state()["hidden"], hidden)

    def test_frames_as_text(self):
        browser = self.example("shared_page", "#8")
        browser.value("document.getElementById('listed').open = true")
        text = "document.getElementById('frames').textContent"
        for _ in range(50):
            if browser.value(text):
                break
        self.assertEqual(browser.value(text).splitlines(), [
            "frame 0 on node 0: 0x10000 of process 1, 0x20000 of process 2; asked for, and stayed: -13 EACCES",
            "frame 4 on node 1: 0x11000 of process 1; arrived in this step"])
        self.choose(browser, "process", "2")
        self.assertEqual(len(browser.value(text).splitlines()), 1)
        self.choose(browser, "node", "1")
        self.assertEqual(browser.value(text), "none")

    def test_pages_that_stay(self):
        state = self.example("why_not_moved", "#6").state()
        self.assertIn("2 left, 2 arrived, 1 stayed", state["told"])
        self.assertIn("0x12000 to node 1                                   -12 ENOMEM", state["told"])
        self.assertEqual(self.example("pinned_page", "#6").state()["table"][1][-1], "1")

    def test_many_nodes(self):
        self.written("many.nt", MANY)
        report = self.written("many.report", model.report(trace_from(MANY.encode(), "many.nt")))
        browser = self.page("#504", os.path.join(self.there, "many.nt"), report)
        state = browser.state()
        self.assertEqual(len(state["captions"]), 64)
        self.assertIn("150 left, 150 arrived", state["told"])
        self.assertTrue(state["plot"].startswith("Heat map of nodes by steps: after step 504, 500 of 1536"))
        self.assertLessEqual(browser.value("document.body.scrollWidth"), 1200)

    def drawn(self, text, at=""):
        """The page of a file in the notation, with the plain model's report."""
        self.written("x.nt", text)
        report = self.written("x.report", model.report(trace_from(text.encode(), "x.nt")))
        return self.page(at, os.path.join(self.there, "x.nt"), report)

    def test_axis(self):
        browser = self.drawn('nodes 2x600\nspawn p\nmap p A 1000\nwrite p A 61\nrepeat 3 as i\nnote "turn {i}"\nmove_pages p A[i] to 1\nlook\nend\nnote "over"\n')
        marks = "JSON.stringify([...document.querySelectorAll('#marks option')].map(one => [Number(one.value), one.textContent]))"
        # 1,002 steps, and then three turns of a move and a look of four, which shows what the move has left: at 1,003, 1,008 and 1,013.
        self.assertEqual(browser.value("JSON.stringify(anchors)"), "[0,1002,1003,1007,1008,1012,1013,1017]")
        state = browser.state()
        self.assertEqual((browser.value("by('axis').value"), state["slider"]), ("looks", "7"))
        self.assertEqual(json.loads(browser.value(marks)), [[1, "turn 0"], [3, "turn 1"], [5, "turn 2"], [7, "over"]])
        self.assertEqual(browser.value("[0, 1002, 1003, 1017].map(share).join()"), "0,0.14285714285714285,0.2857142857142857,1")
        self.assertEqual(browser.value("[0, 1 / 14, 1 / 7, 1].map(stepAt).join()"), "0,501,1002,1017")
        browser.value("by('slider').value = 3; by('slider').dispatchEvent(new Event('input'))")
        self.assertEqual((browser.value("now"), browser.value("by('section').textContent")), (1007, "turn 0"))
        self.choose(browser, "note", "1")
        self.assertEqual((browser.value("now"), browser.value("by('section').textContent"), browser.state()["slider"]), (1008, "turn 1", "4"))
        browser.press("End", 35)
        self.assertEqual(browser.value("by('section').textContent"), "over")
        self.choose(browser, "axis", "steps")
        self.assertEqual((browser.state()["slider"], browser.value("by('slider').max"), browser.value("share(1002)")), ("1017", "1017", 1002 / 1017))
        self.assertEqual(json.loads(browser.value(marks))[0], [1002, "turn 0"])

    def test_names_pins_and_offline(self):
        browser = self.drawn("nodes 4 + cxl 4\nspawn app\nmap app heap 2\nwrite app heap 61\npin app heap[0]\noffline cxl\nlook\nonline cxl\nunpin app heap[0]\n")
        browser.value("document.getElementById('listed').open = true")
        browser.value("show(10)")
        state = browser.state()
        self.assertEqual(state["captions"], ["node 0: 2 of 4", "node 1 (cxl): 0 of 4, offline"])
        self.assertEqual([row[-1] for row in state["table"]], ["pinned", "1", "0"])
        self.assertEqual(browser.value("frameText(0, 0)"), "frame 0 on node 0: heap[0] (0x10000) of app (process 1); pinned")
        self.assertEqual(browser.value("frameText(5, 1)"), "frame 5: free, number 2 of node 1's list, but the node is offline")
        pixels = [browser.value(f"document.querySelectorAll('#nodes canvas')[{node}].getContext('2d').getImageData({x}, 1, 1, 1).data.join()")
                  for node, x in [(0, 31), (0, 65), (1, 31)]]
        self.assertEqual(pixels[0], "122,31,162,255")
        self.assertEqual(len(set(pixels)), 3)
        self.assertEqual(browser.value("[...by('process').options].map(one => one.textContent).join()"), "all,app (1)")
        browser.press("End", 35)
        self.assertEqual(browser.state()["captions"][1], "node 1 (cxl): 0 of 4")
        self.assertEqual([row[-1] for row in browser.state()["table"]], ["pinned", "0", "0"])

    def test_nothing_to_show(self):
        state = self.page("", self.written("empty.nt", "nodes 2x4\n"), self.written("empty.report", "")).state()
        self.assertEqual((state["told"], state["captions"]), ("before the first step", ["node 0: 0 of 4", "node 1: 0 of 4"]))

    def test_numa_maps_alone(self):
        text = "nodes 2x4\nspawn p\nmap p A 3\nwrite p A 61\nnuma_maps p\n"
        trace = self.written("maps.nt", text)
        report = self.written("maps.report", "0 spawn ok\n1 map segment=0\n2 write ok\n3 write ok\n4 write ok\n5 numa_maps 1\n"
                              "00010000 default anon=3 N0=3 kernelpagesize_kB=4\n")
        state = self.page("", trace, report).state()
        self.assertEqual((state["captions"], state["source"]), (["node 0: 3 of 4", "node 1: 0 of 4"], "model"))


if __name__ == "__main__":
    unittest.main()
