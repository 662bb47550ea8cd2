"""Pictures of domains and of a packet's path."""
import os
import re
import unittest
import xml.etree.ElementTree as ElementTree

from support import EXAMPLES, REPLAYS, UNMOVED, needs, python_alone, replayed, scratch, tool, write

GREEN, RED, BLUE = "#2a9d4a", "#c9302c", "#1d5fa8"
DOMAINS = sorted(name for name in os.listdir(EXAMPLES) if os.path.exists(os.path.join(EXAMPLES, name, "domain.toml")))
DIFFERENT_METRICS = """
[[subdomain]]
sd = 0
kind = "configured"
[[router]]
name = "A"
system = "0000.0000.0001"
prefix = "10.0.0.1"
overload = true
[[router]]
name = "B"
system = "0000.0000.0002"
prefix = "10.0.0.2"
[[bier]]
router = "A"
sd = 0
id = 0
[[link]]
a = "A"
b = "B"
metric_ab = 10
metric_ba = 77
"""

TOPOLOGY = """node 0000.0000.0001 transit
node 0000.0000.0002 overload
edge 0000.0000.0001 0000.0000.0001 3
edge 0000.0000.0001 0000.0000.0002 10
edge 0000.0000.0002 0000.0000.0001 77
bier 0000.0000.0001 0 7 10.0.0.1
path 0000.0000.0002 10
done records 2 lsps 2 nodes 2
"""


def drawn(*words):
    """The picture in Graphviz's language, which needs no Graphviz."""
    path = scratch("picture.dot")
    done = tool("picture", *words, "-o", path)
    assert done.returncode == 0, done.stderr
    with open(path) as file:
        return file.read()


class Picture(unittest.TestCase):
    def test_domains(self):
        for name in DOMAINS:
            with self.subTest(name):
                path = os.path.join(EXAMPLES, name, "domain.toml")
                with open(path) as file:
                    text = file.read()
                dot = drawn(path)
                for router in re.findall(r'^name = "(.*)"', text, re.M):
                    self.assertIn(f'label="{router}\\n', dot)
                self.assertEqual(dot.count("dir=none"), text.count("[[link]]"))

    def test_kinds_of_routers(self):
        fork = drawn(os.path.join(EXAMPLES, "fork", "domain.toml"), "--labels")
        self.assertIn("P\\nnon-BFR", fork)
        self.assertIn("64 bits: 300", fork)
        self.assertIn("overload bit", drawn(os.path.join(EXAMPLES, "line", "domain.toml")))
        mixed = drawn(write("mixed.toml", DIFFERENT_METRICS))
        self.assertIn('taillabel="10", headlabel="77"', mixed)
        self.assertIn("A\\ntransit\\noverload bit", mixed)

    def test_a_topology(self):
        """The report of `topo`: nodes, metrics of both directions, BFR-ids and the overload bit."""
        dot = drawn(write("topology", TOPOLOGY))
        self.assertIn("0000.0000.0001\\nBFR-id 7", dot)
        self.assertIn("0000.0000.0002\\nnon-BFR\\noverload bit", dot)
        self.assertIn('taillabel="10", headlabel="77"', dot)
        self.assertEqual(dot.count("dir=none"), 1)
        none = tool("picture", write("no-topology", "done records 3 lsps 0 nodes 0\n"))
        self.assertEqual((none.returncode, "the topology has no nodes" in none.stderr), (1, True))

    def test_a_loop(self):
        """The packet of the ring's example that loops until its TTL expires."""
        it = replayed("replay-ring")
        for words in ([], ["--schedule", it.schedule]):
            dot = drawn(it.domain, it.report, it.frames, "4", *words)
            self.assertEqual(dot.count(f'fontcolor="{BLUE}"'), 2)  # two ways
            self.assertIn("line 11, TTL 3<br/><b>3</b><br/>line 13, TTL 1", dot)
            self.assertIn("dropped 3: ttl, line 14", dot)
            self.assertIn(RED, dot)
            self.assertNotIn(GREEN, dot)

    def test_links_that_are_down(self):
        """With the schedule, all interfaces that are down; without it, those that the LSPs up to then leave out."""
        it = replayed("replay-ring")
        for injection, known, found in (("3", None, None), ("4", "\\ndown at B", None), ("5", "\\ndown", "\\ndown")):
            for words, wanted in ((["--schedule", it.schedule], known), ([], found)):
                dot = drawn(it.domain, it.report, it.frames, injection, *words)
                self.assertEqual(re.findall(r'label="10(.*?down.*?)"', dot), [wanted] if wanted else [])

    def test_each_injection(self):
        for name in UNMOVED:
            it = replayed(name)
            with open(it.report) as file:
                told = [line.split() for line in file if line.split()[1] in ("got", "drop")]
            for number in sorted({words[3] for words in told if words[3] != "-"}):
                dot = drawn(it.domain, it.report, it.frames, number)
                with self.subTest(name=name, number=number):
                    mine = [words for words in told if words[3] == number]
                    self.assertEqual(dot.count("\\ngot "), sum(words[1] == "got" for words in mine))
                    self.assertEqual(dot.count("\\ndropped "), sum(words[1] == "drop" for words in mine))

    def test_labels_that_move(self):
        """With the schedule a packet is followed whose labels the domain file lacks; without it the picture asks for it."""
        it = replayed("replay-relabel")
        self.assertIn("got 6, line 13", drawn("--schedule", it.schedule, it.domain, it.report, it.frames, "2"))
        done = tool("picture", it.domain, it.report, it.frames, "2")
        self.assertEqual(done.returncode, 1)
        self.assertIn("--schedule", done.stderr)

    def test_hellos_and_cuts(self):
        """A link that hellos brought down, with and without the schedule; the other way round a packet still arrives."""
        it = replayed("handshake-fibre")
        for words in ([], ["--schedule", it.schedule]):
            for injection, wanted in (("1", []), ("4", []), ("6", ["\\ndown"]), ("7", [])):
                dot = drawn(it.domain, it.report, it.frames, injection, *words)
                self.assertEqual(re.findall(r'label="10(.*?down.*?)"', dot), wanted)
            self.assertIn("dropped 11,12: lost, line 57", drawn(it.domain, it.report, it.frames, "4", *words))
        it = replayed("check-television")
        dot = drawn("--schedule", it.schedule, it.domain, it.report, it.frames, "1")
        self.assertIn("dropped 6,7: none, line 80", dot)
        self.assertEqual(len(re.findall(r'label="10(.*?down.*?)"', dot)), 1)

    @needs("dot", "graphviz")
    def test_drawing(self):
        it = replayed("replay-television")
        done = tool("picture", it.domain, it.report, it.frames, "3")
        words = {element.text for element in ElementTree.fromstring(done.stdout).iter() if element.text}
        self.assertIn("dropped 6,7: link, line 14", words)
        self.assertIn("got 11, line 14", words)
        path = scratch("picture.png")
        self.assertEqual(tool("picture", it.domain, "-o", path).returncode, 0)
        with open(path, "rb") as file:
            self.assertEqual(file.read(8), b"\x89PNG\r\n\x1a\n")

    def test_without_graphviz(self):
        it = replayed("replay-ring")
        done = tool("picture", it.domain, env={"PATH": python_alone()})
        self.assertEqual((done.returncode, done.stdout), (1, ""))
        self.assertIn("Graphviz isn't installed (Debian: graphviz)", done.stderr)


if __name__ == "__main__":
    unittest.main()
