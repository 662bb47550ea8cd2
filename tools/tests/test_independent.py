"""The independent implementation in tools/independent, the checks of captures, and frames that no honest router sends."""
import os
import struct
import subprocess
import unittest

from support import EXAMPLES, INDEPENDENT, REPLAYS, command_of, needs, places, replayed, scratch, tool, write
from common import capture, frames

# Packets in tunnels in the domain FORK, computed by hand: A to C by way of P, which knows no BIER, on both links; A to D.
TUNNELS = [
    "020000010000020000000001 0800 4500002e 00004000 ff2f679d 0a000001 0a000003 00008847 0012c108 50100000 00040001 0000000000000004 00ff",
    "020000020001020000010002 0800 4500002e 00004000 fe2f689d 0a000001 0a000003 00008847 0012c108 50100000 00040001 0000000000000004 00ff",
    "020000010000020000000001 0800 4500002e 00004000 ff2f679c 0a000001 0a000004 00008847 00190108 50100000 00040001 0000000000000008 00ff",
]


def modelled(folder, schedule=None, command="replay"):
    """The report and the capture that the independent program writes."""
    frames = scratch("independent.pcap")
    words = [INDEPENDENT, command, os.path.join(folder, "domain.toml"), schedule or os.path.join(folder, "schedule"), frames]
    done = subprocess.run(words, capture_output=True, text=True)
    with open(frames, "rb") as file:
        return done.returncode, done.stdout, file.read()


class Model(unittest.TestCase):
    def test_stored_replays(self):
        """The stored outputs of the examples."""
        for name in REPLAYS:
            folder = os.path.join(EXAMPLES, name)
            with self.subTest(name):
                status, report, frames = modelled(folder, command=command_of(name))
                with open(os.path.join(folder, "report")) as file:
                    self.assertEqual(report, file.read())
                with open(os.path.join(folder, "status")) as file:
                    self.assertEqual(status, int(file.read()))
                if os.path.exists(os.path.join(folder, "frames")):
                    with open(os.path.join(folder, "frames"), "rb") as file:
                        self.assertEqual(frames, file.read())

    def test_tunnels(self):
        schedule = write("fork", "settle 3\ninject A 0 64 3,4 8 0 00ff\nsettle 2\n")
        status, report, frames = modelled(os.path.join(EXAMPLES, "fork"), schedule)
        wanted = "3 got C 1 3 00ff\n3 got D 1 4 00ff\ndone lines 3 injected 1 named 2 got 2 dropped 0 flight 0\n"
        self.assertEqual((status, report), (0, wanted))
        records = [record.octets.hex() for record in capture.read_capture(write("fork.pcap", frames))]
        for tunnel in TUNNELS:
            self.assertIn(tunnel.replace(" ", ""), records)

    def test_coverage(self):
        """The example of coverage with a packet after each question: its deliveries are the BFR-ids that `cover` lists."""
        folder, asked, lines = os.path.join(EXAMPLES, "check-television"), [], []
        with open(os.path.join(folder, "schedule")) as file:
            for line in file.read().splitlines():
                lines += [line] + ([line.replace("cover", "inject") + " 00", "settle 9"] if line.startswith("cover") else [])
        report = modelled(folder, write("covered", "\n".join(lines) + "\n"), "check")[1].splitlines()
        got = {}
        for _, kind, *words in (line.split() for line in report[:-1]):
            if kind == "cover":
                asked.append([int(bfr_id) for bfr_id in words[0].split(",")])
            elif kind == "got":
                got.setdefault(int(words[1]), []).append(int(words[2]))
        # The schedule has a packet of its own, after the question on the same cut.
        got = {number: sorted(ids) for number, ids in got.items()}
        own = next(number for number in got if got[number] == got.get(number - 1) == [4, 5, 8, 9, 10, 11, 12])
        self.assertEqual([got[number] for number in sorted(got) if number != own], asked)


class Compare(unittest.TestCase):
    def test_few_runs(self):
        """The independent program compared with itself, by each command."""
        for command in ("replay", "replay-ng", "handshake", "check", "node", "topo"):
            done = tool(os.path.join("independent", "compare"), INDEPENDENT, "1", "4", command)
            with self.subTest(command):
                self.assertTrue(done.stdout.startswith("bad 0 of 4 "), done.stdout + done.stderr)


# The pair of routers, and what B hears of A: its first link state PDU, twice in five seconds, or the second one much later.
PAIR = """
subdomain=[{sd=0,kind='mpls'}]
router=[{name='A',system='0000.0000.0001',prefix='10.0.0.1'},{name='B',system='0000.0000.0002',prefix='10.0.0.2'}]
bier=[{router='A',sd=0,id=1},{router='B',sd=0,id=2}]
labels=[{router='A',sd=0,bsl=64,max_si=0,label=100},{router='B',sd=0,bsl=64,max_si=0,label=200}]
link=[{a='A',b='B',metric_ab=10,metric_ba=10}]
"""
FIRST_LSP = bytes.fromhex(
    "09002b000005 020000000001 0050 fefe03 831b010014010000 004d 04b0 0000000000010000 00000001 554e 03 010403490001 8101cc 890141 160b"
    "00000000000200 00000a 00 8717 00000000 60 0a000001 0d 200b 0000000001 0104 00100064"
)


def heard(*seconds):
    header = bytes.fromhex("d4c3b2a1020004000000000000000000ffff000001000000")
    size = len(FIRST_LSP)
    return write("heard.pcap", header + b"".join(struct.pack("<IIII", at, 0, size, size) + FIRST_LSP for at in seconds))


def write_program(name, line):
    path = write(name, f"#!/bin/sh\n{line}\n")
    os.chmod(path, 0o755)
    return path


class Node(unittest.TestCase):
    def answer(self, router, *seconds):
        frames = scratch("node.pcap")
        words = [INDEPENDENT, "node", write("pair.toml", PAIR), router, heard(*seconds), frames]
        done = subprocess.run(words, capture_output=True, text=True)
        return done.returncode, done.stdout, frames

    def test_clock(self):
        self.assertEqual(self.answer("B", 100, 105)[:2], (0, "done records 2 used 2 passed 0 got 0 dropped 0 sent 3\n"))
        psnp = "831101001b01000000230000000000020009 1004ab00000000000100000000 0001554e".replace(" ", "")
        with open(scratch("node.pcap"), "rb") as file:
            self.assertTrue(file.read().hex().endswith(psnp))
        self.assertEqual(self.answer("B", 100, 1000)[:2], (0, "done records 2 used 2 passed 0 got 0 dropped 0 sent 182\n"))
        self.assertEqual(self.answer("B", 100, 70000)[:2], (8, "refused record 2 7 Gap 100 70000\n"))
        self.assertEqual(self.answer("Z", 100)[:2], (3, "refused conf 6 Reference words[2]\n"))


class Storm(unittest.TestCase):
    def test_few_frames(self):
        """The independent program compared with itself."""
        words = ["storm", "--frames", "2000", "--jobs", "1", "--memory", "500", "--keep", scratch("storm")]
        done = tool(*words, "--program", INDEPENDENT)
        self.assertIn("0 runs differ", done.stdout, done.stderr)

    def test_no_command(self):
        done = tool("storm", "--frames", "1000", "--jobs", "1", "--program", write_program("usage", "echo usage: none; exit 2"))
        self.assertEqual(done.returncode, 1)
        self.assertIn("has no command `node`", done.stderr)


class Captures(unittest.TestCase):
    def test_replays(self):
        for name in REPLAYS:
            it = replayed(name)
            done = tool("check-capture", it.frames, it.domain, it.schedule)
            with self.subTest(name):
                self.assertEqual((done.returncode, done.stderr), (0, ""), done.stdout)

    @needs("tshark", "tshark")
    def test_hellos(self):
        """tshark dissects each hello of the example as a point-to-point hello of three TLVs, and the adjacency's states in order."""
        path = os.path.join(EXAMPLES, "handshake-fibre", "frames")
        fields = ("isis.type", "isis.hello.clv.type", "isis.hello.adjacency_state", "_ws.malformed", "_ws.expert.severity")
        words = ["tshark", "-r", path, "-Y", "isis.hello", "-T", "fields", *(it for field in fields for it in ("-e", field))]
        cells = [line.split("\t") for line in subprocess.run(words, capture_output=True, text=True).stdout.splitlines()]
        records = capture.read_capture(path)
        self.assertEqual(len(cells), sum(frames.is_hello(record.octets) for record in records))
        self.assertEqual({(kind, codes, *faults) for kind, codes, _, *faults in cells}, {("17", "1,129,240", "", "")})
        # In the first round ten interfaces are down, in the second each router knows its neighbors.
        self.assertEqual("".join(state for _, _, state, *_ in cells)[:30], "2" * 10 + "1" * 10 + "0" * 10)

    @needs("tshark", "tshark")
    def test_hellos_of_frr(self):
        """The hellos of routers that aren't this project's: what the tools read is what tshark reads."""
        done = tool("check-capture", os.path.join(places.TOOLS, "tests", "frr", "capture.pcap"))
        self.assertEqual(done.returncode, 0, done.stdout)
        self.assertIn("112 point-to-point hellos with a three-way handshake, 0 that tshark reads otherwise", done.stdout)

    def test_wrong_hellos(self):
        """A hello whose TLV 240 ends early."""
        if "isn't installed" in tool("check-capture", replayed("replay-pair").frames).stderr:
            self.skipTest("tshark isn't installed (Debian: tshark)")
        octets = bytearray(next(it.octets for it in capture.read_capture(replayed("handshake-fibre").frames)))
        octets[-6] = 6  # the length of TLV 240, beyond the end
        done = tool("check-capture", write("wrong.pcap", capture.write_capture([octets])))
        self.assertEqual(done.returncode, 1)
        self.assertIn("1 IS-IS frames, 1 malformed", done.stdout)

    def test_wrong_captures(self):
        """A label that its receiver doesn't have, in and out of a tunnel."""
        fork = os.path.join(EXAMPLES, "fork", "domain.toml")
        octets = [bytearray.fromhex(tunnel) for tunnel in TUNNELS]
        self.assertEqual(tool("check-capture", write("right.pcap", capture.write_capture(octets)), fork).returncode, 0)
        octets[1][40] ^= 0x10  # the label
        done = tool("check-capture", write("wrong.pcap", capture.write_capture(octets)), fork)
        self.assertEqual(done.returncode, 1)
        self.assertIn("frame 2: C has no BIFT-id 301 for 64 bits", done.stdout)

    def test_wrong_checksums(self):
        if "isn't installed" in tool("check-capture", replayed("replay-pair").frames).stdout:
            self.skipTest("tshark isn't installed (Debian: tshark)")
        octets = bytearray.fromhex(TUNNELS[0])
        octets[22] -= 1  # the outer TTL, and not the checksum
        done = tool("check-capture", write("wrong.pcap", capture.write_capture([octets])))
        self.assertEqual(done.returncode, 1)
        self.assertIn("1 that tshark doesn't dissect as one with a correct checksum", done.stdout)


if __name__ == "__main__":
    unittest.main()
