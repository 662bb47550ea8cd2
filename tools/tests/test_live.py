"""tools/live: the streams, the interfaces, an independent router on a stream, and the lab with FRR in its short form."""
import os
import struct
import subprocess
import sys
import unittest
from types import SimpleNamespace

from support import places, read, scratch
from common import live_ports, live_show, live_stream
from common.trouble import read_octets

CRATE = os.path.join(places.ROOT, "crates", "live_router")
DATA = os.path.join(CRATE, "data")
LAB = os.path.join(places.ROOT, "examples", "live-frr", "lab")
INDEPENDENT = os.path.join(places.TOOLS, "independent", "replay.py")
PROGRAM = os.environ.get("LIVE_ROUTER") or places.LIVE
is_built = unittest.skipUnless(os.access(PROGRAM, os.X_OK), "live_router isn't built")
FRAME = bytes(range(60))


def lab_lacks():
    """What the lab lacks, by its own word."""
    done = subprocess.run([sys.executable, LAB, "--lacks"], stdout=subprocess.PIPE, text=True)
    return done.stdout.strip()


class Streams(unittest.TestCase):
    def test_an_event_is_its_line(self):
        frame = live_stream.event("hello m1 f1", bytes([10, 1, 0, 1]))
        self.assertEqual(frame, bytes(8) + b"\x0a\x01\x00\x01\x88\xb5\x01hello m1 f1")
        self.assertEqual(live_stream.line_of(frame), "hello m1 f1")
        self.assertIsNone(live_stream.line_of(FRAME))

    def test_frames_come_in_any_pieces(self):
        octets = live_stream.HEADER + live_stream.record(FRAME, 10**9) + live_stream.record(FRAME[:14], 2 * 10**9)
        for size in (1, 7, 40, len(octets)):
            parser = live_stream.Frames()
            found = [frame for at in range(0, len(octets), size) for frame in parser.feed(octets[at : at + size])]
            self.assertEqual(found, [FRAME, FRAME[:14]], size)

    def test_a_capture_that_is_being_written(self):
        path = scratch("growing.pcap")
        whole = live_stream.HEADER + live_stream.record(FRAME, 10**9)
        for more in (b"", b"\1" * 5, live_stream.record(FRAME, 0)[:-1]):
            with open(path, "wb") as file:
                file.write(whole + more)
            self.assertEqual(live_show.whole_octets(path), whole)
            self.assertEqual(live_show.whole(path), [FRAME])

    def test_neighbors_that_are_up_at_the_end(self):
        lines = ["down m1 f1", "down m1 f2", "up m1 f2", "up m1 f1", "up m2 f3", "tick m1", "down m1 f2"]
        octets = live_stream.HEADER + b"".join(live_stream.record(live_stream.event(line), 0) for line in lines)
        self.assertEqual(live_show.peers_up(octets, "m1"), ["f1"])
        self.assertEqual(live_show.peers_up(live_stream.HEADER, "m1"), [])

    def test_a_vlan_tag_comes_back(self):
        notes = struct.pack("IIIHHHH", live_ports.VLAN_VALID | live_ports.TPID_VALID, 60, 60, 0, 0, 5, 0x88A8)
        self.assertEqual(live_ports.with_tag(FRAME, notes), FRAME[:12] + b"\x88\xa8\x00\x05" + FRAME[12:])
        self.assertEqual(live_ports.with_tag(FRAME, bytes(20)), FRAME)


class Children(unittest.TestCase):
    def test_a_program_has_a_session_of_its_own(self):
        """So that Ctrl-C stops the tool, which ends the program's stream, and not the program."""
        child = live_stream.Child(["/bin/sh", "-c", "exec cat > /dev/null"])
        self.assertNotEqual(os.getsid(child.process.pid), os.getsid(0))
        child.close()
        self.assertEqual(child.wait(10), 0)
        self.end(child)

    def test_a_program_that_reads_nothing_is_behind(self):
        child = live_stream.Child(["/bin/sh", "-c", "sleep 60"])
        given = 0
        while not child.is_behind() and given < 10**6:
            child.give(FRAME, 10**9)
            given += 1
        self.assertGreater(given * (16 + len(FRAME)), live_stream.MOST_WAITING)
        child.process.kill()
        child.process.wait()
        self.end(child)

    def end(self, child):
        os.close(child.frames)
        child.process.stdout.close()
        child.process.stdin.close()


class Programs(unittest.TestCase):
    @is_built
    def test_the_independent_router_does_the_same(self):
        words = [os.path.join(DATA, "domain.toml"), "A", os.path.join(DATA, "stream.pcap")]
        frames = [scratch("live.pcap"), scratch("independent.pcap")]
        said = [
            subprocess.run([*program, *words, path], stdout=subprocess.PIPE, text=True).stdout
            for program, path in zip(([PROGRAM], [sys.executable, INDEPENDENT, "live"]), frames)
        ]
        self.assertEqual(said, [read(os.path.join(CRATE, "stdout"))] * 2)
        self.assertEqual(*map(read_octets, frames))

    @is_built
    def test_the_database_is_shown(self):
        """The LSPs of a router whose interface is up are shown as they are; the question changes none."""
        stream, sent = scratch("shown.pcap"), scratch("shown-sent.pcap")
        octets = read_octets(os.path.join(DATA, "stream.pcap"))
        with open(stream, "wb") as file:
            file.write(octets + b"".join(live_stream.record(live_stream.event(line), 0) for line in ("up A B", "send A B")))
        domain = os.path.join(DATA, "domain.toml")
        subprocess.run([PROGRAM, domain, "A", stream, sent], stdout=subprocess.DEVNULL)
        pdus = [frame[17:] for frame in live_show.whole(sent)]
        own = [pdu for pdu in pdus if pdu[4] & 31 == 20 and pdu[12:18] == bytes([0, 0, 0, 0, 0, 1])]
        options = SimpleNamespace(program=PROGRAM, domain=domain, router="A", record=stream)
        shown = live_show.database(options).splitlines()
        titles = "LSP ID                   Router  PduLen  SeqNumber   Chksum  Holdtime  ATT/P/OL"
        self.assertEqual(shown[:2], ["IS-IS link-state database of A", titles])
        wanted = ["0000.0000.0001.00-00  *  A      ", "0000.0000.0002.00-00     B      "]
        self.assertEqual([line[:32] for line in shown[2:]], wanted)
        length, number, checksum, life = live_show.values(own[-1])
        self.assertEqual(shown[2].split()[3:], [str(length), f"0x{number:08x}", f"0x{checksum:04x}", str(life), "0/0/0"])

    @is_built
    def test_the_independent_hellos_are_the_same(self):
        domain, stream = os.path.join(DATA, "domain.toml"), scratch("hellos.pcap")
        lines = ["hello A B", "break A B", "hello A B", "mend A B", "tick A", "up A B", "tick B", "hello A C"]
        records = [live_stream.record(live_stream.event(line, bytes([10, 0, 0, 1])), 10**9 * at) for at, line in enumerate(lines)]
        # the hellos of B: they see nobody, then A, then A again
        for at, named in enumerate((None, "A", "A")):
            state = b"\2" if named is None else b"\1" + struct.pack(">I", 9) + bytes([0, 0, 0, 0, 0, 1]) + struct.pack(">I", 1)
            way = state if named else state + struct.pack(">I", 9)
            pdu = b"\x83\x14\x01\0\x11\x01\0\0\2" + bytes([0, 0, 0, 0, 0, 2]) + struct.pack(">HHB", 2, 22 + len(way), 9) + bytes([240, len(way)]) + way
            octets = bytes.fromhex("09002b000005020000010000") + struct.pack(">H", len(pdu) + 3) + b"\xfe\xfe\x03" + pdu
            records += [live_stream.record(octets, 10**9 * (20 + at)), live_stream.record(live_stream.event("tick A"), 10**9 * (20 + at))]
        records.append(live_stream.record(live_stream.event("tick A"), 10**9 * 30))
        with open(stream, "wb") as file:
            file.write(live_stream.HEADER + b"".join(records))
        frames = [scratch("live-hello.pcap"), scratch("independent-hello.pcap")]
        said = [
            subprocess.run([*program, domain, "A", stream, path], stdout=subprocess.PIPE, text=True).stdout
            for program, path in zip(([PROGRAM, "hello"], [sys.executable, INDEPENDENT, "live-hello"]), frames)
        ]
        self.assertEqual(said[0], said[1])
        self.assertIn("refused event 4 EndState", said[0])
        self.assertEqual(*map(read_octets, frames))
        lines = [line for line in map(live_stream.line_of, live_show.whole(frames[0])) if line]
        self.assertEqual(lines, ["up A B", "down A B"])


class Lab(unittest.TestCase):
    def test_the_lab_with_frr(self):
        lacks = lab_lacks()
        if lacks:
            self.skipTest(lacks)
        done = subprocess.run([sys.executable, LAB, "pair", "--short"], stdout=subprocess.PIPE, text=True, timeout=300)
        self.assertEqual(done.returncode, 0, done.stdout)


if __name__ == "__main__":
    unittest.main()
