"""The page of a replay: its data, and what it shows in Chromium."""
import base64
import html
import json
import os
import re
import subprocess
import tempfile
import unittest

from support import REPLAYS, needs, program, replayed, scratch, tool, write
from common import capture, tables

TRIES = 3  # Chromium may fail to start where a machine is busy


# Does what a user does, step by step, and writes down the line and the address after each step.
KEYS = """
  const note = (name, text) => { steps[name] = [shownLine, text === undefined ? location.hash : text]; };
  const key = (name, key, shiftKey = false) => { document.dispatchEvent(new KeyboardEvent("keydown", { key, shiftKey })); note(name); };
  note("start");
  key("right", "ArrowRight"); key("left", "ArrowLeft"); key("shift", "ArrowRight", true); key("home", "Home"); key("end", "End");
  key("p", "p"); key("p again", "p"); key("n", "n");
  document.querySelectorAll("#schedule .row")[4].click(); note("row");
  const bar = document.getElementById("bar"), box = bar.getBoundingClientRect();
  bar.dispatchEvent(new PointerEvent("pointerdown", { clientX: box.left + 12, clientY: box.top + 5 })); note("bar");
  window.dispatchEvent(new PointerEvent("pointerup"));
  goTo(14); showFrame(514); note("frame");
  key("tab", "3"); key("closed", "Escape");
  document.querySelectorAll(".router")[2].dispatchEvent(new MouseEvent("click", { bubbles: true }));
  note("router", document.getElementById("sent-count").textContent);
  location.hash = "#line=9"; await new Promise((done) => setTimeout(done, 200)); note("hash");
"""
# Follows the links to some lines, and writes what the page shows at each.
VISIT = """
  for (const line of lines) {
    location.hash = `#line=${line}`; await new Promise((done) => setTimeout(done, 100));
    const rows = [...document.querySelectorAll("#told .row")].map((row) => row.textContent);
    steps[line] = { told: rows, text: $("line-text").textContent, sent: $("sent-count").textContent };
  }
"""
WRITE = """
  const out = document.createElement("pre");
  out.id = "steps"; out.textContent = JSON.stringify(steps); document.body.append(out);
"""


def page(name):
    """The page of an example's replay, and its path."""
    it, path = replayed(name), scratch(name + ".html")
    done = tool("player", *it.files, "-o", path)
    assert done.returncode == 0, done.stderr
    with open(path) as file:
        return file.read(), path


def data_of(text):
    return json.loads(re.search(r'<script type="application/json" id="data">(.*?)</script>', text, re.S).group(1))


def told_by_line(name):
    """The report's lines, by the line of the schedule."""
    told = {}
    with open(replayed(name).report) as file:
        for line in file.read().splitlines()[:-1]:
            told.setdefault(int(line.split(" ")[0]), []).append(line)
    return told


def three_lines(name, count):
    """The first line that delivers or drops, one with a drop, and the last."""
    told = told_by_line(name)
    drops = [line for line, texts in told.items() if any(" drop " in text for text in texts)]
    return [min(told, default=1), drops[0] if drops else max(told, default=1), count]


def opened(path, link):
    """The page's DOM in Chromium, and its console output."""
    with tempfile.TemporaryDirectory() as profile:
        command = [
            "chromium",
            "--headless=new",
            "--no-sandbox",
            "--disable-gpu",
            "--disable-dev-shm-usage",
            f"--user-data-dir={profile}",
        ]
        command += [
            "--window-size=1500,900",
            "--enable-logging=stderr",
            "--log-level=0",
            "--virtual-time-budget=4000",
            "--dump-dom",
            f"file://{path}{link}",
        ]
        for _ in range(TRIES):
            done = subprocess.run(command, capture_output=True, text=True, timeout=120)
            if "</html>" in done.stdout:
                break
    console = [line for line in done.stderr.splitlines() if "CONSOLE" in line]
    return done.stdout, console


def written(dom):
    """What a script in the page wrote down."""
    return json.loads(html.unescape(re.search(r'<pre id="steps">(.*?)</pre>', dom).group(1)))


def with_script(text, name, script):
    """A copy of a page that runs a script and writes down the steps that it made."""
    path = scratch(name)
    with open(path, "w") as file:
        file.write(text.replace("</body>", f"<script>(async () => {{ const steps = {{}};{script}{WRITE} }})();</script></body>"))
    return path


class Page(unittest.TestCase):
    def test_data(self):
        """Nothing of the report and the capture is missing on the page."""
        for name in REPLAYS:
            text, _ = page(name)
            data, it = data_of(text), replayed(name)
            with self.subTest(name), open(it.report) as report:
                lines = report.read().splitlines()
                self.assertEqual([told for line in data["lines"] for told in line["g"]], lines[:-1])
                self.assertEqual(data["end"], lines[-1])
                octets = [
                    bytes.fromhex(data["heads"][frame[3]]) + base64.b64decode(data["bodies"][frame[4]])
                    for frame in data["frames"]
                ]
                self.assertEqual(octets, [record.octets for record in capture.read_capture(it.frames)])

    def test_needs_nothing(self):
        text, _ = page("replay-ring")
        script = text.replace("http://www.w3.org/2000/svg", "")
        self.assertNotRegex(script, r"https?://|<link|src=|@import|fetch\(|XMLHttpRequest")

    def test_same_way_up(self):
        """The page counts downward, and Graphviz upward."""
        it, dot = replayed("replay-television"), scratch("way-up.dot")
        self.assertEqual(tool("picture", it.domain, "-o", dot).returncode, 0)
        with open(dot) as file:
            pictured = [float(y) for y in re.findall(r'pos="[-0-9.]+,([-0-9.]+)!"', file.read())]
        shown = [router["y"] for router in data_of(page("replay-television")[0])["routers"]]
        order = lambda heights: sorted(range(len(heights)), key=lambda place: (round(heights[place], 2), place))
        self.assertEqual(order([-y / 1.5 for y in pictured]), order([y - max(shown) for y in shown]))

    def test_tables(self):
        """Of a router that is clicked the page has the tables of show_router after each line, or why it has none."""
        it = replayed("replay-ring")
        without = scratch("without.html")
        done = tool("player", *it.files, "-o", without, env={"SHOW_ROUTER": "/nowhere"})
        self.assertEqual((done.returncode, done.stderr), (0, ""))
        with open(without) as file:
            self.assertIn("show_router isn't built", data_of(file.read())["tables"]["why"])
        if not os.access(tables.program(), os.X_OK):
            self.skipTest("show_router isn't built")
        data = data_of(page("replay-ring")[0])
        self.assertEqual(len(data["tables"]["lines"]), len(data["lines"]) + 1)
        shown = {}
        for number, line in enumerate(data["tables"]["lines"]):
            shown.update(line)
            if number in (9, 10):
                text = data["tables"]["texts"][shown[1]]
                self.assertTrue(text.startswith("IS-IS link-state database of B\n"))
                self.assertEqual("\n        1  C     Down " in text, number == 10)
                self.assertIn("\n\nBIRT of B\n", text)

    @needs("chromium", "chromium")
    def test_tables_in_chromium(self):
        """A click on a router shows its tables, or its LSDB and why there are no tables."""
        text, _ = page("replay-ring")
        script = """
          document.querySelectorAll(".router")[1].dispatchEvent(new MouseEvent("click", { bubbles: true }));
          steps.text = [...document.querySelectorAll("#databases > :not(.chips)")].map((it) => it.textContent);
        """
        dom, console = opened(with_script(text, "tables.html", script), "#line=10&tab=databases")
        self.assertEqual(console, [])
        shown = written(dom)["text"]
        self.assertEqual(shown[0], "B")
        wanted = "IS-IS link-state database of B" if os.access(tables.program(), os.X_OK) else "show_router isn't built"
        self.assertTrue(shown[1].startswith(wanted), shown[1])

    def test_no_lines(self):
        it, empty, report, frames = replayed("replay-pair"), write("empty", ""), scratch("empty.report"), scratch("empty.pcap")
        with open(report, "wb") as file:
            subprocess.run([program(), "replay", it.domain, empty, frames], stdout=file, check=True)
        done = tool("player", it.domain, empty, report, frames, "-o", scratch("empty.html"))
        self.assertEqual((done.returncode, done.stderr), (0, ""))
        self.assertIn("0 lines, 0 frames", done.stdout)

    def test_odd_texts(self):
        """A schedule's comments can't end the page's script."""
        it, path = replayed("replay-pair"), scratch("odd.html")
        with open(it.schedule) as file:
            lines = file.read().splitlines()
        comment = next(place for place, line in enumerate(lines) if line.startswith("#"))
        lines[comment] = "# </script><b>@SCRIPT@ & ü"
        odd = scratch("odd")
        with open(odd, "w") as file:
            file.write("\n".join(lines) + "\n")
        self.assertEqual(tool("player", it.domain, odd, it.report, it.frames, "-o", path).returncode, 0)
        with open(path) as file:
            self.assertEqual(data_of(file.read())["lines"][comment]["t"], lines[comment])

    @needs("chromium", "chromium")
    def test_in_chromium(self):
        """Each example opens; at three lines, by their links, it shows the report's lines."""
        for name in REPLAYS:
            text, _ = page(name)
            data, told = data_of(text), told_by_line(name)
            lines = three_lines(name, len(data["lines"]))
            dom, console = opened(with_script(text, name + "-lines.html", f"const lines = {lines};{VISIT}"), f"#line={lines[0]}")
            self.assertEqual(console, [])
            for line in lines:
                with self.subTest(name=name, line=line):
                    shown = written(dom)[str(line)]
                    self.assertEqual(shown["told"][:8], told.get(line, [])[:8])
                    self.assertEqual(shown["text"], data["lines"][line - 1]["t"])
                    self.assertEqual(shown["sent"], f'{data["lines"][line - 1]["s"][1]} frames')

    @needs("chromium", "chromium")
    def test_keys_and_mouse(self):
        """Each key and click leads where the user guide has it; the page writes down what it then shows."""
        text, _ = page("replay-television")
        path = with_script(text, "keys.html", KEYS)
        dom, console = opened(path, "#line=3")
        self.assertEqual(console, [])
        found = written(dom)
        lines = {
            "start": 3,
            "right": 4,
            "left": 3,
            "shift": 13,
            "home": 0,
            "end": 24,
            "p": 17,
            "p again": 14,
            "n": 17,
            "row": 5,
            "bar": 1,
        }
        self.assertEqual({name: line for name, (line, _) in found.items() if name in lines}, lines)
        self.assertEqual(found["frame"][1], "#line=14&frame=514")
        self.assertEqual(found["tab"][1], "#line=14&frame=514&tab=databases")
        self.assertEqual(found["closed"][1], "#line=14&tab=databases")
        self.assertEqual(found["router"][1], "4 frames of core-2")
        self.assertEqual(found["hash"][0], 9)

    @needs("chromium", "chromium")
    def test_a_frame_in_chromium(self):
        """The first packet of the ring's example, field by field, and the state of the map where a link is down."""
        text, path = page("replay-ring")
        data = data_of(text)
        number = next(place for place, frame in enumerate(data["frames"], 1) if frame[2])
        dom, console = opened(path, f"#line=3&frame={number}")
        self.assertEqual(console, [])
        self.assertIn(f"Frame {number}: A → B, injection 1, sub-domain 0, for 3", dom)
        for field, value in (
            ("BIFT-id (label)", "200"),
            ("TTL", "8"),
            ("BSL", "1, 64 bits"),
            ("BFIR-id", "1"),
            ("BitString", "positions 3"),
            ("Payload", "00ff"),
        ):
            spans = rf'<span class="name"[^>]*>{re.escape(field)}</span><span class="value">{re.escape(value)}</span>'
            self.assertRegex(dom, spans)
        down = next(place for place, line in enumerate(data["lines"], 1) if line["t"].startswith("down"))
        dom, _ = opened(path, f"#line={down}&tab=databases")
        self.assertEqual(len(re.findall(r'class="link down"', dom)), 1)
        self.assertIn("3 of 4 routers agree", dom)
        self.assertIn("B.00-00: sequence 2, others sequence 1", dom)

    @needs("chromium", "chromium")
    def test_hellos_in_chromium(self):
        """Interfaces that begin down, come up and go down by hellos; a hello, field by field."""
        _, path = page("handshake-fibre")
        for line, down, shown in (
            (0, 10, "and all interfaces are down"),
            (2, 0, "0 delivered, 0 dropped, 10 up"),
            (59, 1, "0 delivered, 0 dropped, 1 down"),
            (59, 1, ">down to hub-1</text>"),
            (64, 2, "64 down hub-1 site-1"),
        ):
            dom, console = opened(path, f"#line={line}")
            self.assertEqual(console, [])
            self.assertEqual(len(re.findall(r'class="link down"', dom)), down, line)
            self.assertIn(shown, dom)
        dom, console = opened(path, "#line=2&frame=11")
        self.assertEqual(console, [])
        self.assertIn("Frame 11: hub-1 → site-1, hello, Initializing, hears site-1", dom)
        fields = re.findall(r'<span class="name"[^>]*>([^<]*)</span><span class="value">([^<]*)</span>', dom)
        wanted = {("Source", "hub-1"), ("Holding time", "30"), ("TLV 240, adjacency", "Initializing"), ("Neighbor", "site-1")}
        self.assertLessEqual(wanted, set(fields))

    @needs("chromium", "chromium")
    def test_coverage_in_chromium(self):
        """At a question about coverage the routers that are covered are green, and those that aren't red."""
        _, path = page("check-television")
        for line, covered, missed, mark in ((7, 9, 0, "9 of 9"), (9, 5, 4, "5 of 9"), (78, 7, 2, "7 of 9")):
            dom, console = opened(path, f"#line={line}")
            self.assertEqual(console, [])
            classes = [words.split() for words in re.findall(r'<g transform="[^"]*" class="(router[^"]*)"', dom)]
            found = [sum(name in words for words in classes) for name in ("got", "drop")]
            self.assertEqual(found, [covered, missed], line)
            self.assertIn(f">{mark}</span>", dom)


if __name__ == "__main__":
    unittest.main()
