"""The dissector of BIER for Wireshark, by tshark."""
import functools
import os
import random
import struct
import subprocess
import unittest

from support import EXAMPLES, REPLAYS, needs, places, replayed, write
from common import capture, frames

SCRIPT = os.path.join(places.TOOLS, "wireshark", "bier.lua")
FIELDS = [
    "frame.number",
    "eth.type",
    "bier.bift_id",
    "bier.ttl",
    "bier.bsl",
    "bier.entropy",
    "bier.proto",
    "bier.bfir_id",
    "bier.fault",
    "bier.bp",
]
FAULTS = {"Short": 1, "Nibble": 2, "Version": 3, "BslCode": 4}
STORED = ["headers-of-a-capture", "headers-cut-capture"]

PAIR = bytes.fromhex("020000010000020000000001")
# A packet that A sends to C behind a non-BFR, before and after it, and one to D.
TUNNELS = [
    "02000001000002000000000108004500002e00004000ff2f679d0a0000010a000003000088470012c10850100000000400010000000000000004" "00ff",
    "02000002000102000001000208004500002e00004000fe2f689d0a0000010a000003000088470012c10850100000000400010000000000000004" "00ff",
    "02000001000002000000000108004500002e00004000ff2f679c0a0000010a000004000088470019010850100000000400010000000000000008" "00ff",
]


def tshark(path, *words):
    done = subprocess.run(
        ["tshark", "-X", f"lua_script:{SCRIPT}", "-r", path, *words], capture_output=True, text=True, timeout=300
    )
    assert "Lua" not in done.stderr, done.stderr
    return done.stdout


def rows(path, *names):
    """The chosen fields of each frame."""
    words = [word for name in names for word in ("-e", name)]
    return [line.split("\t") for line in tshark(path, "-T", "fields", *words).splitlines()]


def line_of(row):
    """What `headers` prints of a frame, from the dissector's fields; None where there is no BIER header."""
    _, kind, bift, ttl, bits, entropy, protocol, bfir, fault, positions = row
    if fault:
        return f"bad {FAULTS[fault]} {fault}"
    if not bift:
        return None
    name = "mpls" if kind == frames.MPLS else "bier"
    return f"{name} {bift} {ttl} {bits} {entropy} {protocol} {bfir} {positions or '-'}"


def lines(path):
    """The report of `headers` but its last line, from the dissector's fields."""
    found = []
    for row in rows(path, *FIELDS):
        # A payload may be Ethernet again; the first type is the frame's own.
        row[1] = int(row[1].split(",")[0] or "0", 16)
        line = line_of(row) if row[1] in (frames.MPLS, frames.BIER) else None
        if line:
            found.append(f"{row[0]} {line}")
    return found


def lines_of_headers(path):
    """The same by the program where it is built, else by the tools' own reader."""
    if places.built_program():
        done = subprocess.run([places.built_program(), "headers", path], capture_output=True, text=True)
        return done.stdout.splitlines()[:-1]
    named = ((record.number, frames.header_line(record.octets)) for record in capture.read_capture(path))
    return [f"{number} {line}" for number, line in named if line]


def packet(protocol, payload, kind=frames.MPLS):
    """A frame with a BIER header of 64 bits for positions 1 and 3."""
    header = struct.pack(">IIHH", 100 << 12 | 0x100 | 64, 5 << 28 | 1 << 20 | 7, protocol, 9) + bytes(7) + b"\x05"
    return PAIR + struct.pack(">H", kind) + header + payload


@functools.cache
def frames_of_examples():
    """Frames of all examples with a BIER header, and some others."""
    found = [bytes.fromhex(tunnel) for tunnel in TUNNELS]
    for name in STORED[:1]:
        found += [record.octets for record in capture.read_capture(os.path.join(EXAMPLES, name, "capture.pcap"))]
    for name in REPLAYS:
        records = capture.read_capture(replayed(name).frames)
        found += [record.octets for record in records if not frames.is_isis(record.octets)] + [
            record.octets for record in records[:5]
        ]
    return found


def mutated(chance, frame):
    """A frame with some octets changed, removed or added."""
    frame = bytearray(frame)
    for _ in range(chance.choice((1, 1, 2, 4, 8))):
        kind, at = chance.randrange(6), chance.randrange(len(frame) or 1)
        if kind <= 2 and frame:
            frame[at] = chance.choice((0, 0xFF, chance.randrange(256), frame[at] ^ 1 << chance.randrange(8)))
        elif kind == 3:
            del frame[at:]
        elif kind == 4:
            frame[at:at] = chance.randbytes(chance.randrange(9))
        else:
            frame += chance.randbytes(chance.randrange(600))
    return bytes(frame)


@needs("tshark", "tshark")
class Dissector(unittest.TestCase):
    def test_stored_reports(self):
        for name in STORED:
            with open(os.path.join(EXAMPLES, name, "report")) as file:
                wanted = file.read().splitlines()[:-1]
            with self.subTest(name):
                self.assertEqual(lines(os.path.join(EXAMPLES, name, "capture.pcap")), wanted)

    def test_replays(self):
        for name in REPLAYS:
            with self.subTest(name):
                path = replayed(name).frames
                found = lines(path)
                self.assertEqual(found, lines_of_headers(path))
                self.assertEqual(tshark(path, "-Y", "_ws.malformed"), "")

    def test_tunnels(self):
        path = write("tunnels.pcap", capture.write_capture(map(bytes.fromhex, TUNNELS)))
        names = ("ip.ttl", "ip.dst", "ip.checksum", "gre.proto", "mpls.label", "bier.bift_id", "bier.bp", "_ws.malformed")
        self.assertEqual(
            rows(path, *names),
            [
                ["255", "10.0.0.3", "0x679d", "0x8847", "300", "300", "3", ""],
                ["254", "10.0.0.3", "0x689d", "0x8847", "300", "300", "3", ""],
                ["255", "10.0.0.4", "0x679c", "0x8847", "400", "400", "4", ""],
            ],
        )

    def test_a_tunnel_without_labels(self):
        """Type 0xAB37 behind GRE."""
        outer = bytes.fromhex("4500002c00004000ff2f679f0a0000010a0000030000ab37")
        path = write("configured.pcap", capture.write_capture([PAIR + b"\x08\x00" + outer + packet(4, b"")[14:]]))
        self.assertEqual(rows(path, "gre.proto", "bier.bift_id", "bier.bp", "_ws.malformed"), [["0xab37", "100", "1,3", ""]])

    def test_next_protocols(self):
        ipv4 = bytes.fromhex("4500001400004000401100000a0000010a000002")
        ipv6 = bytes.fromhex("6000000000003b40") + bytes(31) + b"\x01" + bytes(15) + b"\x02"
        label = bytes.fromhex("003e81ff")
        ethernet = PAIR + b"\x08\x00" + ipv4
        payloads = [
            (4, ipv4, "ip"),
            (6, ipv6, "ipv6"),
            (2, label + ipv4, "mpls:ip"),
            (3, label + ipv4, "mpls:ip"),
            (3, ethernet, "eth"),
            (4, b"\x00\xff", "data"),
            (5, b"\x01", "data"),
        ]
        every = [packet(protocol, payload, kind) for protocol, payload, _ in payloads for kind in (frames.MPLS, frames.BIER)]
        found = rows(write("payloads.pcap", capture.write_capture(every)), "frame.protocols", "bier.bp")
        for place, (protocols, positions) in enumerate(found):
            wanted = payloads[place // 2][2]
            with self.subTest(place=place, protocols=protocols):
                self.assertEqual(positions, "1,3")
                self.assertIn(":" + wanted, protocols.split("bier", 1)[1])

    def test_length_in_red(self):
        whole = packet(4, b"")
        path = write("short.pcap", capture.write_capture([whole, whole[:-1], whole[:19] + b"\x90" + whole[20:]]))
        found = rows(path, "bier.fault", "_ws.expert.severity")
        # 8388608 is the number of an error, which Wireshark shows in red.
        self.assertEqual(found, [["", ""], ["Short", "8388608"], ["BslCode", "8388608"]])

    def test_filters(self):
        path = write("filters.pcap", capture.write_capture([packet(4, b"")]))
        for condition in (
            "bier.bift_id == 100",
            "bier.ttl == 64",
            "bier.bsl == 64",
            "bier.entropy == 7",
            "bier.proto == 4",
            "bier.bfir_id == 9",
            "bier.bp == 3",
            "bier.bitstring == 00:00:00:00:00:00:00:05",
            "bier",
        ):
            with self.subTest(condition):
                self.assertNotEqual(tshark(path, "-Y", condition), "")
        self.assertEqual(tshark(path, "-Y", "bier.bp == 2"), "")

    def test_mutated_frames(self):
        chance = random.Random(26)
        every = [mutated(chance, chance.choice(frames_of_examples())) for _ in range(10_000)]
        path = write("mutated.pcap", capture.write_capture(every))
        wanted = [f"{number} {line}" for number, frame in enumerate(every, 1) if (line := frames.header_line(frame))]
        found = lines(path)
        # A payload may contain a second packet, whose fields are listed with the first's.
        twice = {line.split(" ")[0] for line in found if "," in " ".join(line.split(" ")[2:8])}
        self.assertLess(len(twice), 50)
        alone = lambda these: [line for line in these if line.split(" ")[0] not in twice]
        self.assertEqual(alone(found), alone(wanted))
        text = tshark(path, "-V")
        self.assertNotIn("Lua Error", text)
        self.assertGreater(text.count("Bit Index Explicit Replication"), 3000)


if __name__ == "__main__":
    unittest.main()
