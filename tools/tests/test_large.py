"""Networks of 80 and 250 routers: the tools are done within ten seconds of processor time, and what they show can be read."""
import functools
import os
import resource
import subprocess
import unittest

import national
from support import Replay, needs, places, program, scratch, tool, write
from test_player import opened, with_script, written

# The goal is 10 s on an idle machine; one that is busy or slow gets twice that.
SECONDS = 20
MAP = """
  await new Promise((done) => setTimeout(done, 500));
  const names = [...document.querySelectorAll(".router text:not(.small):not(.fate)")].map((it) => it.getBoundingClientRect());
  const boxes = [...document.querySelectorAll(".router rect")].map((it) => it.getBoundingClientRect());
  const panel = $("map").getBoundingClientRect(), span = (side, size) =>
    Math.max(...boxes.map((it) => it[side] + it[size])) - Math.min(...boxes.map((it) => it[side]));
  steps.name = Math.min(...names.map((it) => it.height));
  steps.wide = span("left", "width") / panel.width;
  steps.high = span("top", "height") / panel.height;
"""


def schedule(count):
    """A packet, a core link that fails, a packet in flight meanwhile, and one after that."""
    ids = ",".join(map(str, national.receivers(count)))
    inject = f"inject core-1 0 256 {ids} 64 7"
    return f"settle 200\n{inject} 01\nsettle 2\ndown core-1 core-2\ndown core-2 core-1\n{inject} 02\nsettle 200\n{inject} 03\nsettle 200\n"


@functools.cache
def replayed(count):
    folder = scratch(f"national-{count}")
    os.makedirs(folder)
    it = Replay(f"national-{count}", folder)
    write(os.path.join(folder, "domain.toml"), national.national(count))
    write(os.path.join(folder, "schedule"), schedule(count))
    with open(it.report, "wb") as report:
        words = [program(), "replay", it.domain, it.schedule, it.frames]
        subprocess.run(words, stdout=report, check=True, timeout=120)
    return it


def timed(*words):
    """Runs a tool; the seconds of processor time that it took."""
    before = resource.getrusage(resource.RUSAGE_CHILDREN).ru_utime
    done = tool(*words)
    assert done.returncode == 0, done.stderr
    return resource.getrusage(resource.RUSAGE_CHILDREN).ru_utime - before


@unittest.skipUnless(places.built_program(), "the program isn't built (rt ci builds it)")
class Large(unittest.TestCase):
    def test_player(self):
        for count in (80, 250):
            with self.subTest(count):
                self.assertLess(timed("player", *replayed(count).files, "-o", scratch("large.html")), SECONDS)

    @needs("dot", "graphviz")
    def test_picture(self):
        it = replayed(250)
        self.assertLess(timed("picture", it.domain, "-o", scratch("large.svg")), SECONDS)
        self.assertLess(timed("picture", it.domain, it.report, it.frames, "2", "-o", scratch("large.svg")), SECONDS)
        with open(scratch("large.svg")) as file:
            self.assertIn(">down<", file.read())

    def test_sweep(self):
        """A sweep of two runs at 250 routers."""
        before = resource.getrusage(resource.RUSAGE_CHILDREN).ru_utime
        domain = replayed(250).domain
        done = tool("sweep", domain, "--out", scratch("large"), "--fail", "1", "--fail-count", "2", "--seeds", "1", "--program", program())
        self.assertEqual(done.returncode, 0, done.stderr)
        self.assertLess(resource.getrusage(resource.RUSAGE_CHILDREN).ru_utime - before, SECONDS)

    @needs("chromium", "chromium")
    def test_map(self):
        """At 80 routers names have at least eight pixels, and the map fills its panel."""
        path = scratch("map.html")
        timed("player", *replayed(80).files, "-o", path)
        with open(path) as file:
            dom, console = opened(with_script(file.read(), "map-steps.html", MAP), "#line=6")
        self.assertEqual(console, [])
        found = written(dom)
        self.assertGreater(found["name"], 8)
        self.assertGreater(found["wide"], 0.85)
        self.assertGreater(found["high"], 0.75)


if __name__ == "__main__":
    unittest.main()
