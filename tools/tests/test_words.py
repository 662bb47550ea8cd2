"""What each tool answers to wrong arguments and files: one line about it, and never a traceback."""
import os
import unittest

from support import program, python_alone, replayed, scratch, tool, write

NAMES = ["picture", "player", "sweep", "heard", "lint", "storm", "fail-each", "check", "check-capture", "release", "release-test"]


class Words(unittest.TestCase):
    def refused(self, said, name, *words):
        done = tool(name, *words)
        with self.subTest(name=name, words=words):
            self.assertEqual(done.returncode, 1, done.stderr)
            self.assertNotIn("Traceback", done.stderr)
            self.assertEqual(len(done.stderr.splitlines()), 1, done.stderr)
            self.assertIn(said, done.stderr)

    def test_help(self):
        for name in NAMES + ["independent/replay.py", "independent/compare"]:
            done = tool(name, "--help")
            with self.subTest(name):
                self.assertEqual((done.returncode, done.stderr), (0, ""))
                self.assertGreater(len(done.stdout), 100)

    def test_missing_files(self):
        it, gone = replayed("replay-ring"), scratch("gone")
        for words in (
            [gone],
            [gone, it.report, it.frames, "1"],
            [it.domain, gone, it.frames, "1"],
            [it.domain, it.report, gone, "1"],
        ):
            self.refused("No such file", "picture", *words)
        for place in range(4):
            files = [gone if place == other else path for other, path in enumerate(it.files)]
            self.refused("No such file", "player", *files, "-o", scratch("page.html"))
        self.refused("No such file", "sweep", gone, "--out", scratch("none"))
        self.refused("No such file", "check-capture", gone)
        self.refused("No such file", "release-test", gone)
        self.refused("No such file", "heard", gone, "A", it.frames, scratch("out.pcap"))
        self.refused("No such file", "heard", it.domain, "A", gone, scratch("out.pcap"))

    def test_broken_files(self):
        it, broken = replayed("replay-ring"), write("broken", b"\xff\xfe[[\x00broken")
        self.refused("not a domain file", "picture", broken)
        self.refused("not a domain file", "sweep", broken, "--out", scratch("none"))
        for place, said in enumerate(("not a domain file", "is invalid (1 Word)", "not a text", "not a capture")):
            files = [broken if place == other else path for other, path in enumerate(it.files)]
            self.refused(said, "player", *files, "-o", scratch("page.html"))

    def test_cut_off_files(self):
        it = replayed("replay-ring")
        with open(it.frames, "rb") as file:
            cut = write("cut.pcap", file.read()[:-1])
        with open(it.report) as file:
            half = write("half", "".join(file.readlines()[:3]))
        self.refused("ends within record", "player", it.domain, it.schedule, it.report, cut, "-o", scratch("page.html"))
        self.refused("not a complete report", "player", it.domain, it.schedule, half, it.frames, "-o", scratch("page.html"))
        self.refused("not a complete report", "picture", it.domain, half, it.frames, "1")

    def test_files_of_two_replays(self):
        ring, pair = replayed("replay-ring"), replayed("replay-pair")
        self.refused(
            "aren't of one replay", "player", ring.domain, ring.schedule, ring.report, pair.frames, "-o", scratch("page.html")
        )
        self.refused("no injection 99", "picture", ring.domain, ring.report, ring.frames, "99")

    def test_inputs_are_kept(self):
        it = replayed("replay-ring")
        for path in it.files[:3:2] + it.files[3:]:
            before = os.path.getsize(path)
            self.refused("would be overwritten", "player", *it.files, "-o", path)
            self.assertEqual(os.path.getsize(path), before)
        self.refused("would be overwritten", "heard", it.domain, "A", it.frames, it.frames)

    def test_nothing_is_checked(self):
        """Without tshark a capture doesn't pass."""
        it = replayed("replay-ring")
        done = tool("check-capture", it.frames, it.domain, env={"PATH": python_alone()})
        self.assertEqual(done.returncode, 1)
        self.assertIn("tshark isn't installed (Debian: tshark)", done.stderr)

    def test_what_can_t_be_done(self):
        it = replayed("replay-ring")
        self.refused("name an .svg", "picture", it.domain, "-o", scratch("picture.txt"))
        self.refused("no router of that name", "sweep", it.domain, "--from", "Z", "--out", scratch("none"))
        self.refused("no router of that name", "sweep", it.domain, "--to", "Z", "--out", scratch("none"))
        self.refused("no link joins", "sweep", it.domain, "--group", "A/B,A/C", "--out", scratch("none"))
        self.refused("no router of that name", "heard", it.domain, "Z", it.frames, scratch("out.pcap"))
        self.refused("there are", "heard", it.domain, "A", it.frames, scratch("out.pcap"), "--damage", "100000")
        self.refused("no such sub-domain", "sweep", it.domain, "--sd", "9", "--out", scratch("none"))
        self.refused("Not a directory", "sweep", it.domain, "--out", os.path.join(it.domain, "out"), "--program", program())
        self.refused("No such file", "sweep", it.domain, "--program", scratch("gone"), "--out", scratch("none"))


if __name__ == "__main__":
    unittest.main()
