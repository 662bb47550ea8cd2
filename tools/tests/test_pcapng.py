"""Captures in the format pcapng: what the tools read of them, and what Wireshark's programs do with those that are written."""
import glob
import os
import struct
import subprocess
import sys
import unittest

from support import EXAMPLES, INDEPENDENT, PLAIN, REPLAYS, needs, program, read, replayed, scratch, tool, write
from common import capture, domain, places

sys.path.insert(0, os.path.dirname(INDEPENDENT))
import captures


def built():
    """The program, which has `headers`; the independent one doesn't."""
    found = places.built_program()
    if not found:
        raise unittest.SkipTest("no program is built")
    return found


def converted(path, kind):
    """A capture in another format, by Wireshark's editcap."""
    out = scratch(f"{os.path.basename(path)}.{kind}")
    subprocess.run(["editcap", "-F", kind, path, out], check=True, capture_output=True)
    return out


def shape(records):
    return [(record.number, record.second, bytes(record.octets)) for record in records]


def block(kind, body, order="<"):
    size = len(body) + 12
    return struct.pack(order + "II", kind, size) + body + struct.pack(order + "I", size)


def section(order="<"):
    return block(0x0A0D0D0A, struct.pack(order + "IHHq", 0x1A2B3C4D, 1, 0, -1), order)


def interface(order="<", options=b"", snap=0):
    return block(1, struct.pack(order + "HHI", 1, 0, snap) + options, order)


def packet(place, ticks, octets, order="<"):
    head = struct.pack(order + "IIIII", place, ticks >> 32, ticks & 0xFFFFFFFF, len(octets), len(octets))
    return block(6, head + octets + bytes(-len(octets) % 4), order)


# nanoseconds, with a comment of the interface before the resolution, and the end of the options behind it
NANO = struct.pack(">HH4sHHB3xHH", 1, 4, b"text", 9, 1, 9, 0, 0)
# Statistics and name resolution are blocks between the others; the second section has the other byte order, and its own interfaces.
MANY = b"".join(
    [
        section(">"),
        interface(">", NANO),
        interface(">"),
        block(4, bytes(4), ">"),
        packet(1, 7_000_000, b"a" * 15, ">"),
        packet(0, 8_000_000_001, b"b" * 14, ">"),
        block(5, bytes(12), ">"),
        section(),
        interface(snap=20),
        block(3, struct.pack("<I", 30) + b"c" * 20),
        packet(0, 1 << 33, b"d"),
    ]
)
READ = [(1, 7, b"a" * 15), (2, 8, b"b" * 14), (3, 8, b"c" * 20), (4, 8589, b"d")]


class Readers(unittest.TestCase):
    def test_blocks_of_two_sections(self):
        self.assertEqual(shape(capture.records_in("many", MANY)), READ)
        found = [(number, second, octets) for number, second, _, _, octets in captures.records_of(MANY)]
        self.assertEqual(found, READ)

    @needs("editcap", "wireshark-common")
    def test_round_trip(self):
        """Each example's capture to pcapng and back."""
        for name in REPLAYS:
            with self.subTest(name):
                plain = replayed(name).frames
                other = converted(plain, "pcapng")
                self.assertEqual(shape(capture.read_capture(other)), shape(capture.read_capture(plain)))
                self.assertEqual(shape(capture.read_capture(converted(other, "pcap"))), shape(capture.read_capture(plain)))

    @needs("editcap", "wireshark-common")
    def test_heard(self):
        it = replayed("replay-television")
        with open(it.domain) as file:
            router = file.read().split('name = "')[1].split('"')[0]
        heard = [scratch("heard-plain"), scratch("heard-ng")]
        for out, frames in zip(heard, (it.frames, converted(it.frames, "pcapng"))):
            done = tool("heard", it.domain, router, frames, out)
            self.assertEqual(done.returncode, 0, done.stderr)
        with open(heard[0], "rb") as one, open(heard[1], "rb") as other:
            self.assertEqual(one.read(), other.read())

    @needs("editcap", "wireshark-common")
    def test_reports_of_both_formats(self):
        """`headers`, `node` and `topo` on the captures of the examples in both formats: the same reports and frames."""
        runs = [["headers", it] for it in sorted(glob.glob(os.path.join(EXAMPLES, "*", "capture.pcap")))]
        runs += [["headers", replayed(name).frames] for name in REPLAYS]
        for name in ("node-television", "node-damaged-lsp"):
            folder = os.path.join(EXAMPLES, name)
            with open(os.path.join(folder, "words")) as file:
                router = file.read().split()[2]
            runs.append(["node", os.path.join(folder, "domain.toml"), router, os.path.join(folder, "capture.pcap")])
        runs.append(["topo", os.path.join(EXAMPLES, "topo-ipv6", "capture.pcap"), "2", "2", "0000.0000.0001"])
        for words in runs:
            place = next(at for at, word in enumerate(words) if at and word.endswith(("capture.pcap", "frames")))
            outcomes = []
            for kind in ("pcap", "pcapng"):
                capture_path, out = converted(words[place], kind), scratch(f"out-{kind}")
                frames = [out] if words[0] == "node" else []
                done = subprocess.run([built(), *words[:place], capture_path, *words[place + 1 :], *frames], capture_output=True)
                outcomes.append((done.returncode, done.stdout, open(out, "rb").read() if frames else b""))
            with self.subTest(words):
                self.assertEqual(outcomes[0][0], 0)
                self.assertEqual(outcomes[0], outcomes[1])

    def test_written(self):
        """What `replay-ng` writes has the frames of `replay`, and each has the interface of its sender."""
        for name in PLAIN:
            with self.subTest(name):
                it, path = replayed(name), scratch(f"{name}.pcapng")
                words = [program(), "replay-ng", it.domain, it.schedule, path]
                done = subprocess.run(words, capture_output=True, text=True, timeout=120)
                self.assertEqual(done.stdout, read(it.report))
                self.assertEqual(shape(capture.read_capture(path)), shape(capture.read_capture(it.frames)))
                routers = domain.read_domain(it.domain)
                ends = [end["own_mac"] for place in range(len(routers.routers)) for end in routers.ends(place)]
                with open(path, "rb") as file:
                    blocks = list(capture.ng_blocks(path, file.read()))
                self.assertEqual(sum(kind == capture.INTERFACE for kind, _, _ in blocks), len(ends))
                for kind, body, _ in blocks:
                    if kind == capture.ENHANCED:
                        self.assertEqual(ends[body[0] + 256 * body[1]], body[26:32])

    @needs("capinfos", "wireshark-common")
    def test_without_a_complaint(self):
        it, path = replayed("replay-ring"), scratch("ring.pcapng")
        subprocess.run([program(), "replay-ng", it.domain, it.schedule, path], stdout=subprocess.DEVNULL, check=True)
        done = subprocess.run(["capinfos", "-c", "-I", path], capture_output=True, text=True)
        self.assertEqual((done.returncode, done.stderr), (0, ""))
        self.assertIn(f"{len(capture.read_capture(path))}", done.stdout)
        self.assertIn("Number of interfaces in file: 8", done.stdout)

    def test_damage(self):
        for octets, said in (
            (MANY[:-1], "the block at octet"),
            (section() + packet(0, 0, b"e"), "record 1 is on an interface that the capture lacks"),
            (section() + block(1, struct.pack("<HHI", 101, 0, 0)) + packet(0, 0, b"e"), "the link type of record 1 is 101"),
        ):
            path = write("damaged.pcapng", octets)
            done = tool("check-capture", path)
            self.assertEqual(done.returncode, 1)
            self.assertIn(said, done.stderr)


if __name__ == "__main__":
    unittest.main()
