"""Each allocation of a run of the built program fails once."""
import os
import unittest

from support import EXAMPLES, needs, tool, write
from common import places

# One hop, and a packet around the ring.
HOP = "bsl 64\nself 1\nrow 2 B\nrow 3 B\nrow 4 D\npacket 1,2,3,4\n"
SCHEDULE = "settle 4\ninject A 0 64 3 8 0 00ff\nsettle 4\n"


@unittest.skipUnless(places.built_program(), "the program isn't built (rt ci builds it)")
class Memory(unittest.TestCase):
    def each_refused(self, *words):
        done = tool("fail-each", "--jobs", "2", "--program", places.built_program(), *words)
        self.assertEqual(done.returncode, 0, done.stdout + done.stderr)
        self.assertRegex(done.stdout, r"of status 7.*; 0 wrong")

    @needs("cc", "gcc")
    def test_hop(self):
        self.each_refused("hop", write("memory.hop", HOP))

    @needs("cc", "gcc")
    def test_replay(self):
        self.each_refused("replay", os.path.join(EXAMPLES, "ring", "domain.toml"), write("memory.schedule", SCHEDULE), "FRAMES")

    @needs("cc", "gcc")
    def test_hellos_and_questions(self):
        pair, lines = os.path.join(EXAMPLES, "pair", "domain.toml"), "settle 3\ninject A 0 64 2 8 0 00ff\ntick B\n"
        self.each_refused("handshake", pair, write("memory.hellos", lines + "break A B\n"), "FRAMES")
        self.each_refused("check", pair, write("memory.questions", lines + "quiet\ncover A 0 64 1,2 8 0\n"), "FRAMES")

    @needs("cc", "gcc")
    def test_node(self):
        example = os.path.join(EXAMPLES, "node-television")
        self.each_refused("node", os.path.join(example, "domain.toml"), "west-4", os.path.join(example, "capture.pcap"), "FRAMES")

    @needs("cc", "gcc")
    def test_grow(self):
        self.each_refused("grow", "3")
