"""The messages about a rejected domain file or line, and about a domain file that loses packets."""
import os
import subprocess
import sys
import unittest

from support import EXAMPLES, places, program, read, scratch, tool, write
from common import domain, lint
from common.trouble import Trouble

RING = read(os.path.join(EXAMPLES, "ring", "domain.toml"))
ROUTER_E = '[[router]]\nname = "E"\nsystem = "0000.0000.0009"\nprefix = "10.0.0.9"\n'
ROUTER_F = ROUTER_E.replace("E", "F").replace("9", "8")
LABELS = '[[labels]]\nrouter = "{}"\nsd = {}\nbsl = {}\nmax_si = {}\nlabel = {}\n'
LINK = '[[link]]\na = "{}"\nb = "{}"\nmetric_ab = 10\nmetric_ba = 10\n'
# A change of the ring's file: the first text is replaced by the second, which None appends; and the message, with the line.
REJECTED = [
    ('"10.0.0.1"', '"10.0.0.01"', ':10: `prefix = "10.0.0.01"`: expected an address as 10.0.0.1'),
    ('"0000.0000.0002"', '"0000.0000.0001"', ':14: `system = "0000.0000.0001"`: stands twice, first in '),
    ('b = "B"', 'b = "Z"', ':77: `b = "Z"`: no [[router]] has that name'),
    ('b = "B"', 'b = "A"', ':77: `b = "A"`: the link joins a router to itself'),
    ('b = "B"', 'c = "B"', ":77: unknown key `c`; expected a, b, metric_ab"),
    ('b = "B"\n', "", ":75: [[link]] has no `b`; expected the name of another [[router]]"),
    ("label = 200", "label = 5", ":59: `label = 5`: expected a label from 16 to 1048575"),
    ("metric_ab = 10", 'metric_ab = "10"', ':78: `metric_ab = "10"`: expected a metric from 1 to 16777214'),
    ("sd = 0", "sd = ", "not TOML: Invalid value (at line 4, column 6)"),
    (None, LABELS.format("A", 0, 128, 1, 99), "`label = 99`: labels 99 to 100 overlap 100 to 100 ("),
    (None, LABELS.format("A", 7, 128, 1, 9999), "`sd = 7`: no [[subdomain]] has that sd"),
    (None, LINK.format("B", "A"), '`b = "A"`: the second link between these routers, first in '),
    (None, ROUTER_E + LABELS.format("E", 0, 64, 0, 77), "`sd = 0`: E has no [[bier]] entry in that sub-domain"),
    (None, "[[row]]\nsd = 0\nbsl = 64\nsi = 0\nbift = 7\n", '`sd = 0`: the sub-domain is of kind "mpls"'),
]
# Changes of the same kind, each with its warning.
WARNED = [
    (LABELS.format("A", 0, 64, 0, 100), "", "A has no [[labels]] in sub-domain 0"),
    ("id = 4", "id = 70", "with 64 bits D has the sets up to 0, and its own BFR-id 70 is in set 1"),
    ("id = 4", "id = 70", "with 64 bits BFR-id 70 is in set 1, for which A, B, C, D have no label"),
    ("id = 4", "id = 3", "BFR-id 3 of sub-domain 0 is at C, D"),
    (None, ROUTER_E, "E has no link"),
    (None, ROUTER_E + ROUTER_F + LINK.format("E", "F"), "no link leads from E, F to the other 4 routers"),
]
# A second line of a schedule in the ring, and the message; with another command than `replay`, that too.
LINES = [
    ("take A B 3", "there is no frame 3; 0 are in flight there"),
    ("inject A 0 512 3 8 0 00", "the router doesn't support that BitString length"),
    ("inject A 0 64 0 8 0 00", "0 is no BFR-id"),
    ("up A B", "`up` needs an interface that is down"),
    ("jump A", "an unknown first word"),
    ("join A 0", "`leave` needs a sub-domain that the router is in"),
    ("relabel A 0 64 100", "a label of the range is in a range that the router has or had"),
    ("greet A B 1", "there is no hello 1; 0 are in flight there", "handshake"),
    ("mend A B", "`hello` and `break` need a circuit that works, `mend` a broken one", "handshake"),
    ("up A B", "an unknown first word", "handshake"),
    ("cover A 0 64 0 8 0", "0 is no BFR-id", "check"),
    ("quiet A", "an unknown first word, or a wrong number of words", "check"),
]


def changed(name, old, new):
    text = RING + "\n" + new if old is None else RING.replace(old, new, 1)
    return write(name, text)


RUN = """
import sys
sys.path[:0] = [{tools!r}]
from common.front import end_with
sys.argv[1:] = {words!r}
end_with({program!r})
"""


def run_script(*words):
    """Runs the program as the script at the root and the installed command do."""
    code = RUN.format(tools=places.TOOLS, words=list(words), program=program())
    return subprocess.run([sys.executable, "-c", code], capture_output=True, text=True, timeout=120)


class Explained(unittest.TestCase):
    def test_domain_files(self):
        for old, new, said in REJECTED:
            path = changed("rejected.toml", old, new)
            with self.subTest(said), self.assertRaises(Trouble) as found:
                domain.read_domain(path)
            self.assertIn(path, str(found.exception))
            self.assertIn(said, str(found.exception))

    def test_warnings(self):
        for old, new, said in WARNED:
            path = changed("warned.toml", old, new)
            with self.subTest(said):
                self.assertIn(said, "\n".join(lint.warnings(path)))
                done = tool("lint", path)
                self.assertEqual((done.returncode, done.stderr), (1, ""))

    def test_no_warnings(self):
        names = [os.path.join(EXAMPLES, name, "domain.toml") for name in os.listdir(EXAMPLES)]
        done = tool("lint", *filter(os.path.exists, names))
        self.assertEqual((done.returncode, done.stdout), (0, ""))

    def test_the_script(self):
        """The report and the status are the program's, and what is wrong goes to standard error."""
        ring = write("script.toml", RING)
        for text, said, *command in LINES:
            path = write("script.schedule", f"settle 4\n{text}\n")
            done = run_script(*(command or ["replay"]), ring, path, scratch("script.pcap"))
            with self.subTest(text):
                self.assertEqual(done.returncode, 4)
                self.assertTrue(done.stdout.splitlines()[-1].startswith("refused 2 "), done.stdout)
                self.assertTrue(done.stderr.startswith(f"bier_domain: {path}:2: `{text}`: {said}"), done.stderr)
        done = run_script("replay", changed("script.bad", 'b = "B"', 'b = "Z"'), ring, scratch("script.pcap"))
        self.assertEqual((done.returncode, done.stdout), (3, "refused conf 6 Reference link[0].b\n"))
        self.assertIn(':77: `b = "Z"`: no [[router]] has that name', done.stderr)


if __name__ == "__main__":
    unittest.main()
