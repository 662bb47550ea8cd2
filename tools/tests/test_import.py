"""tools/import: by the circle over the examples' domains, on what FRR routers showed and sent, on GraphML and CSV, and on errors."""
import glob
import os
import struct
import subprocess
import types
import unittest

import national
import zoo
from support import EXAMPLES, places, program, read, scratch, tool, write

from common import capture, domain, network

DUMP = os.environ.get("ISIS_DUMP") or os.path.join(places.ROOT, "crates", "isis_dump", "out", "isis_dump")
FRR = os.path.join(places.ROOT, "tools", "tests", "frr")
HAS_DUMP = unittest.skipUnless(os.access(DUMP, os.X_OK), "isis_dump isn't built (rt ci builds it)")


def of_frr(*names):
    return [os.path.join(FRR, name) for name in names]


def replay(path, schedule, name="import.frames"):
    """The capture of a replay."""
    frames = scratch(name)
    done = subprocess.run([program(), "replay", path, write("import.schedule", schedule), frames], capture_output=True, text=True)
    assert done.returncode == 0, done.stdout
    return frames


def links_of(it):
    """Links by names, each once, with the metric from the lesser name and the one to it."""
    found = {}
    for a, b, metric, back in it.links():
        a, b = it.name(a), it.name(b)
        found[min(a, b), max(a, b)] = (metric, back) if a < b else (back, metric)
    return found


def macs_of(it):
    """The MAC address of each interface, by the names of its router and the peer."""
    return {(it.name(at), it.name(end["peer_at"])): end["own_mac"].hex(":") for at in range(len(it.routers)) for end in it.ends(at)}


def routers_of(it):
    return {r.name: (r.system, r.prefix, r.overload, sorted(r.ids()), sorted(r.ranges())) for r in it.routers}


class Import(unittest.TestCase):
    def imported(self, *words):
        """The domain that a source gives, which the program accepts; its text and the notes."""
        path = scratch("imported.toml")
        done = tool("import", *words, "-o", path)
        self.assertEqual((done.returncode, done.stdout), (0, ""), done.stderr)
        replay(path, "settle 1\n", "again.frames")
        return domain.read_domain(path), read(path), done.stderr.splitlines()

    def node(self, *words):
        """The lines of a report of `node`."""
        done = subprocess.run([program(), "node", *words, scratch("node.frames")], capture_output=True, text=True)
        self.assertEqual(done.returncode, 0)
        return done.stdout.splitlines()

    # ---- captures

    @HAS_DUMP
    def test_a_replays_capture_gives_the_domain_again(self):
        sources = sorted(glob.glob(os.path.join(EXAMPLES, "*", "domain.toml")))
        sources += [write("national.toml", national.national(80)), write("own.toml", OWN)]
        for source in sources:
            with self.subTest(source=os.path.relpath(source, places.ROOT)):
                first = domain.read_domain(source)
                again, text, notes = self.imported(replay(source, f"settle {len(first.routers) // 2 + 6}\n"))
                self.assertEqual(routers_of(again), routers_of(first))
                self.assertEqual([r.name for r in again.routers], [r.name for r in sorted(first.routers, key=lambda r: r.system)])
                self.assertEqual(links_of(again), links_of(first))
                self.assertEqual(again.kinds, {sd: kind for sd, kind in first.kinds.items() if any(r.id_in(sd) for r in first.routers)})
                self.assertEqual((again.confs[0]["level"], again.confs[0]["area"]), (first.confs[0]["level"], first.confs[0]["area"]))
                self.assertEqual(notes, [f"import: router {r.name}: has no link" for r in again.routers if not again.ends(r.place)])

    @HAS_DUMP
    def test_until_a_second(self):
        """A link of the ring fails later: LSPs up to the line before have it."""
        ring = os.path.join(EXAMPLES, "replay-ring")
        frames = replay(os.path.join(ring, "domain.toml"), read(os.path.join(ring, "schedule")))
        self.assertEqual(len(links_of(self.imported(frames)[0])), 3)
        self.assertEqual(links_of(self.imported(frames, "--until", "5")[0]), links_of(domain.read_domain(os.path.join(ring, "domain.toml"))))

    @HAS_DUMP
    def test_addresses_at_a_mirror(self):
        """The frames of west-4's links, with its neighbors' addresses and its own changed: all are found, its own by packets."""
        first = domain.read_domain(os.path.join(EXAMPLES, "node-television", "domain.toml"))
        frames = replay(os.path.join(EXAMPLES, "node-television", "domain.toml"), "settle 12\n" + MIRRORED + "settle 12\n")
        links = {mac for end in first.ends(first.place["west-4"]) for mac in (end["own_mac"], end["peer_mac"])}
        with open(frames, "rb") as file:
            octets = file.read()
        heard, at = [octets[:24]], 24
        while at < len(octets):
            record = bytearray(octets[at : at + 16 + struct.unpack_from("<I", octets, at + 8)[0]])
            at += len(record)
            if bytes(record[22:28]) in links:
                record[23] = 0xAA
                record[17] |= 0 if record[16] & 1 else 0xAA
                heard.append(bytes(record))
        it, _, notes = self.imported(write("heard.pcap", b"".join(heard)), "--at", "west-4")
        self.assertEqual(notes, [])
        was, found = macs_of(first), {ends: mac for ends, mac in macs_of(it).items() if mac[3:5] == "aa"}
        pairs = [("west-4", "west-3"), ("west-4", "core-2"), ("west-3", "west-4"), ("core-2", "west-4")]
        self.assertEqual(found, {ends: was[ends][:3] + "aa" + was[ends][5:] for ends in pairs})

    # ---- FRR

    def check_lab(self, it, notes, extra=()):
        self.assertEqual({r.name: r.prefix for r in it.routers}, {name: bytes([10, 255, 0, at]) for at, name in enumerate(LAB, 1)})
        self.assertEqual([r.system for r in it.routers], [bytes([0, 0, 0, 0, 0, at]) for at in range(1, 9)])
        self.assertEqual(links_of(it), {**LAB_LINKS, **dict(extra)})
        self.assertEqual([r.ids() for r in it.routers], [[(0, at)] for at in range(1, 9)])
        self.assertIn("import: link core-1 to core-2: another link between the two, with metrics 30 and 30, not imported", notes)
        lans = [note.split(": ", 1)[1] for note in notes if ": LAN " in note]
        self.assertEqual([lan.split(" of ")[1].split(":")[0] for lan in lans], ["core-3, core-4", "core-4, access-3, access-4"])

    def test_what_frr_shows(self):
        for names in (
            ["database.json"],
            ["database.json", "topology.json"],
            ["topology.json", "hostname.txt", "database.json"],
            ["database.txt"],
            ["frr-8/database.txt"],
            ["frr-8/database.txt", "frr-8/hostname.txt"],
        ):
            with self.subTest(names=names):
                it, _, notes = self.imported(*of_frr(*names))
                self.check_lab(it, notes)
                self.assertIn("import: router access-3: has no link", notes)
        it, _, notes = self.imported(*of_frr("database.json"), "--mesh")
        self.check_lab(it, notes, MESH.items())

    def test_both_levels_and_long_names(self):
        """FRR cuts the names in LSP IDs to 14 characters, here all to the same; the system IDs are found all the same."""
        for words, level, note in (
            ([], 2, ["import: LSPs of level 1: level 2 is imported (--level 1 has the other)"]),
            (["--level", "1"], 1, []),
        ):
            with self.subTest(words=words):
                it, _, notes = self.imported(*of_frr("both-levels.txt"), *words)
                self.assertEqual([r.name for r in it.routers], [f"frankfurt-main-{name}" for name in LAB])
                self.assertEqual([r.system for r in it.routers], [bytes([0, 0, 0, 0, 0, at]) for at in range(1, 9)])
                short = {tuple(name[15:] for name in pair): metrics for pair, metrics in links_of(it).items()}
                self.assertEqual(short, LAB_LINKS)
                self.assertEqual((it.confs[0]["level"], notes[: len(note)]), (level, note))

    @HAS_DUMP
    def test_what_frr_sends(self):
        it, _, notes = self.imported(*of_frr("capture.pcap"), "--mesh")
        self.check_lab(it, notes, MESH.items())
        # The lab gives each interface an address with the numbers of its router and its interface.
        numbers = {name: number for number, name in enumerate(LAB, 1)}
        wanted = {ends: f"02:aa:00:00:{numbers[ends[0]]:02x}:{interface:02x}" for ends, interface in LAB_INTERFACES.items()}
        found = {ends: mac for ends, mac in macs_of(it).items() if not mac.startswith("02:00:")}
        self.assertEqual(found, wanted)
        # With these addresses `node` receives what a router's neighbors sent to it.
        neighbors = {bytes.fromhex(mac.replace(":", "")) for (_, peer), mac in wanted.items() if peer == "core-4"}
        records = [record.octets for record in capture.read_capture(of_frr("capture.pcap")[0])]
        count = sum(octets[6:12] in neighbors and octets[21] & 31 in (20, 25, 27) for octets in records)
        report = self.node(scratch("imported.toml"), "core-4", of_frr("capture.pcap")[0])
        self.assertEqual(report[-1].split()[:5], ["done", "records", str(len(records)), "used", str(count)])
        self.assertEqual(report[:-1], [])

    def test_systems_that_frr_does_not_show(self):
        """Without its own LSP in others' lists a router's system ID isn't known, but by `show isis hostname`."""
        cut = read(of_frr("database.txt")[0]).replace("  Extended Reachability: 0000.0000.0005.00 (Metric: 5)\n", "")
        path = write("cut.txt", cut)
        done = tool("import", path)
        self.assertEqual(done.returncode, 1)
        self.assertIn("give the output of `show isis hostname` too", done.stderr)
        it, _, notes = self.imported(path, *of_frr("hostname.txt"))
        self.assertNotIn(("access-1", "access-2"), links_of(it))
        self.assertIn("import: link access-1 to access-2: only access-1 advertises it, not imported", notes)

    # ---- GraphML and CSV

    def test_graphml_in_the_zoos_layout(self):
        for count in (3, 150, 200):
            with self.subTest(count=count):
                path = write("zoo.graphml", zoo.graphml(count))
                it, text, notes = self.imported(path)
                wanted = {frozenset(edge[:2]) for edge in zoo.edges(count)}
                self.assertEqual({frozenset(link[:2]) for link in it.links()}, {pair for pair in wanted if len(pair) == 2})
                self.assertEqual(sum("another link between the two" in note for note in notes), zoo.doubled(count))
                self.assertEqual(len(it.routers), count)
                self.assertEqual([r.ids() for r in it.routers], [[(0, place + 1)] for place in range(count)])
                self.assertEqual({metric for link in it.links() for metric in link[2:]}, {10})
        metrics = [link[2:] for link in self.imported(path, "--metric-key", "Length")[0].links()]
        lengths = {}
        for a, b, length in zoo.edges(count):
            lengths[frozenset((a, b))] = min(round(length), lengths.get(frozenset((a, b)), 10**6))
        self.assertEqual(sorted(metrics), sorted((length, length) for length in lengths.values()))

    def test_small_sources(self):
        for what, text, words, routers, links, wanted in SMALL:
            with self.subTest(what=what):
                it, _, notes = self.imported(write("small", text), *words)
                self.assertEqual([(r.name, *r.ids(), *r.ranges()) for r in it.routers], routers)
                self.assertEqual(links_of(it), links)
                self.assertEqual(notes, [f"import: {note}" for note in wanted])

    def test_addresses_and_systems_of_csv(self):
        it, text, _ = self.imported(write("full.csv", FULL))
        self.assertEqual([(r.system.hex(), ".".join(map(str, r.prefix)), r.overload) for r in it.routers],
                         [("00000000000a", "10.9.0.1", True), ("000000000001", "10.0.0.1", False)])
        self.assertEqual(macs_of(it), {("A", "B"): "02:00:00:00:00:0a", ("B", "A"): "02:00:00:00:00:0b"})
        self.assertEqual(text.count("# assigned"), 6)

    def test_configured_sub_domain(self):
        path = scratch("configured.toml")
        self.assertEqual(tool("import", write("c.csv", "a,b\nA,B\nB,C\n"), "--kind", "configured", "--bsl", "64", "-o", path).returncode, 0)
        report = subprocess.run(
            [program(), "replay", path, write("c.schedule", "settle 6\ninject A 0 64 1,2,3 9 0 00\nsettle 4\n"), scratch("c.frames")],
            capture_output=True,
            text=True,
        ).stdout
        self.assertEqual([line.split()[1:5] for line in report.splitlines()[:-1]], [["got", x, "1", str(n)] for n, x in enumerate("ABC", 1)])

    # ---- limits and errors

    def test_limits(self):
        star = "a,b\n" + "".join(f"hub,leaf-{at}\n" for at in range(70))
        it, _, notes = self.imported(write("star.csv", star))
        self.assertEqual(len(list(it.links())), 64)
        self.assertEqual(sum("hub has 64 links already, not imported" in note for note in notes), 6)
        chain = "a,b\n" + "".join(f"r{at},r{at + 1}\n" for at in range(1009))
        it, _, notes = self.imported(write("chain.csv", chain))
        self.assertEqual((len(it.routers), len(list(it.links()))), (1000, 999))
        self.assertEqual(sum("at most 1000 routers, not imported" in note for note in notes), 10)
        self.assertEqual(sum("one of the two routers isn't imported" in note for note in notes), 10)

    def test_label_ranges(self):
        for ranges, kept, why in RANGES:
            with self.subTest(ranges=ranges):
                it, router = network.Network(), network.Router("x")
                router.name, router.subs = "x", {1: network.Sub(1, ranges)}
                it.check_ranges(router, network.MOST_RANGES)
                self.assertEqual(router.subs[1].ranges, kept)
                self.assertEqual([note.split(": ")[-1] for note in it.notes], [f"{it}, not imported" for it in why])

    def test_entries(self):
        """A file has fewer members, label ranges and links than its routers could have."""
        it = network.Network()
        it.has_bier = True
        it.routers = [network.Router(f"r{at}") for at in range(1000)]
        for at, router in enumerate(it.routers):
            ranges = [(bits, 0, 16 + 8 * sd + place) for sd in range(5) for place, bits in enumerate((64, 128, 256, 512, 1024))]
            router.subs = {sd: network.Sub(at + 1, ranges[5 * sd : 5 * sd + 5]) for sd in range(5)}
            for step in range(1, 10):
                it.add_link(network.Link(router, it.routers[(at + step) % 1000], 10, 10))
        it.fit(types.SimpleNamespace(prefix_base="10.0.0.1", bsl=64))
        self.assertEqual(len(it.links), 8000)
        self.assertEqual(sum(len(router.subs) for router in it.routers), 4000)
        self.assertEqual(sum(len(sub.ranges) for router in it.routers for sub in router.subs.values()), 16000)
        for count, why in ((1000, "at most 8000 links"), (1000, "at most 4000 entries bier"), (4000, "is beyond the 16000 of a domain file")):
            self.assertEqual(sum(why in note for note in it.notes), count)

    def test_errors(self):
        for text, words, status, line in ERRORS:
            with self.subTest(line=line):
                done = tool("import", write("bad", text), *words)
                self.assertEqual((done.returncode, done.stdout), (status, ""), done.stderr)
                self.assertIn(line, done.stderr.splitlines()[-1])
                if status == 1:
                    self.assertEqual(len(done.stderr.splitlines()), 1)

    def test_the_example(self):
        """The domain file of examples/import-csv is what its tables give."""
        folder = os.path.join(EXAMPLES, "import-csv")
        done = tool("import", os.path.join(folder, "network.csv"))
        self.assertEqual((done.returncode, done.stdout), (0, read(os.path.join(folder, "domain.toml"))))


# packets from core-2 by west-4 to west-3, and back
MIRRORED = "inject core-2 0 256 6 9 0 00\ninject west-4 0 256 6,3 9 0 00\n"
LAB = ["core-1", "core-2", "core-3", "core-4", "access-1", "access-2", "access-3", "access-4"]
LAB_LINKS = {
    ("core-1", "core-2"): (10, 10),
    ("core-2", "core-3"): (10, 15),
    ("core-1", "core-4"): (10, 10),
    ("access-1", "core-1"): (20, 20),
    ("access-1", "access-2"): (5, 5),
    ("access-2", "core-2"): (20, 25),
    ("access-4", "core-3"): (20, 20),
    ("core-3", "core-4"): (10, 10),
}
MESH = {("access-3", "core-4"): (10, 10), ("access-4", "core-4"): (10, 10), ("access-3", "access-4"): (10, 10)}
# the number of the interface at the first of two routers; of the two links of core-1 and core-2, that of metric 10
LAB_INTERFACES = {
    ("core-1", "core-2"): 0, ("core-2", "core-1"): 0,
    ("core-2", "core-3"): 2, ("core-3", "core-2"): 0, ("core-4", "core-1"): 0, ("core-1", "core-4"): 2,
    ("core-1", "access-1"): 3, ("access-1", "core-1"): 0, ("access-1", "access-2"): 1, ("access-2", "access-1"): 0,
    ("access-2", "core-2"): 1, ("core-2", "access-2"): 3, ("core-3", "access-4"): 1, ("access-4", "core-3"): 0,
    ("core-3", "core-4"): 2, ("core-4", "core-3"): 1, ("core-4", "access-3"): 2, ("core-4", "access-4"): 2,
    ("access-3", "core-4"): 0, ("access-3", "access-4"): 0, ("access-4", "core-4"): 1, ("access-4", "access-3"): 1,
}  # fmt: skip

# Level 1, another area, two sub-domains of which one is non-MPLS, a non-BFR and a router that only forwards.
OWN = """level = 1
area = "39840f"
[[subdomain]]
sd = 3
kind = "configured"
[[subdomain]]
sd = 7
kind = "mpls"
[[row]]
sd = 3
bsl = 256
si = 0
bift = 77
[[router]]
name = "x"
system = "0000.0000.0003"
prefix = "10.0.0.3"
[[router]]
name = "y"
system = "0000.0000.0002"
prefix = "10.0.0.2"
overload = true
[[router]]
name = "z"
system = "0000.0000.0001"
prefix = "10.0.0.1"
[[bier]]
router = "x"
sd = 3
id = 9
[[bier]]
router = "x"
sd = 7
id = 300
[[bier]]
router = "z"
sd = 7
id = 0
[[labels]]
router = "x"
sd = 7
bsl = 64
max_si = 4
label = 50
[[labels]]
router = "x"
sd = 7
bsl = 128
max_si = 2
label = 55
[[labels]]
router = "z"
sd = 7
bsl = 128
max_si = 2
label = 1048573
[[link]]
a = "x"
b = "y"
metric_ab = 16777214
metric_ba = 1
[[link]]
a = "z"
b = "y"
metric_ab = 2
metric_ba = 3
"""

GRAPH = '<graphml><key id="k" attr.name="label"/><key id="w" attr.name="cost"/><graph edgedefault="{}">{}</graph></graphml>'
NODES = '<node id="1"><data key="k">A</data></node><node id="2"><data key="k">A</data></node><node id="3"/>'
# what, source, arguments, routers with sub-domains and ranges, links, notes
SMALL = [
    (
        "links alone",
        "a;b;metric\nA;B;7\nB;C;\nB;B;4\n",
        ["--bsl", "64", "--label-base", "100", "--sub-domain", "2"],
        [("A", (2, 1), (2, 64, 0, 100)), ("B", (2, 2), (2, 64, 0, 101)), ("C", (2, 3), (2, 64, 0, 102))],
        {("A", "B"): (7, 7), ("B", "C"): (10, 10)},
        ["small:4: link B to B: joins a router to itself, not imported"],
    ),
    (
        "BFR-ids of the source",
        "NAME,id,label,site\nA,70,500,x\nB,0,,\n9 lives,,,\n\n# links\nb,a,metric_ab,metric_ba\nA,B,1,2\nA,9 lives,,\n",
        ["--bsl", "64"],
        [("A", (0, 70), (0, 64, 1, 500)), ("B", (0, 0), (0, 64, 1, 16002)), ("r-9-lives",)],
        {("A", "B"): (2, 1), ("A", "r-9-lives"): (10, 10)},
        ["small:1: column 'site' is ignored", "small:4: router 9 lives: renamed to r-9-lives"],
    ),
    (
        "a directed graph",
        GRAPH.format("directed", NODES + '<edge source="1" target="2"><data key="w">3</data></edge>'
                     '<edge source="2" target="1"><data key="w">4.6</data></edge><edge source="3" target="1"/>'),
        ["--metric-key", "cost"],
        [("A", (0, 1), (0, 256, 0, 16000)), ("A-2", (0, 2), (0, 256, 0, 16001)), ("node-3", (0, 3), (0, 256, 0, 16002))],
        {("A", "A-2"): (3, 5), ("A", "node-3"): (10, 10)},
        ["small:1: router A: renamed to A-2"],
    ),
]  # fmt: skip

# label ranges as BSL, highest set identifier and label of set 0; those that a domain file can have; why the others aren't
RANGES = [
    ([(64, 3, 100), (128, 3, 104)], [(64, 3, 100), (128, 3, 104)], []),
    ([(64, 3, 100), (128, 0, 103), (256, 0, 99)], [(64, 3, 100), (256, 0, 99)], ["overlaps another range"]),
    ([(64, 3, 100), (64, 0, 200)], [(64, 3, 100)], ["has a second range of that BSL"]),
    ([(64, 0, 15), (128, 1, 1048575), (256, 0, 1048575)], [(256, 0, 1048575)], ["isn't within 16 to 1048575"] * 2),
]

FULL = """name,system,prefix,overload,id,label
A,0000.0000.000A,10.9.0.1,yes,1,
B,,,,2,
# both addresses
\t
a,b,mac_a,mac_b
A,B,02:00:00:00:00:0a,02:00:00:00:00:0B
"""

# source, arguments, status, what the last line on standard error has
ERRORS = [
    ("", [], 1, "bad: no routers"),
    ("x,y\n1,2\n", [], 1, "bad:1: a table begins with the names of its columns"),
    ("name,id\nA,65536\n", [], 1, "bad:2: id: '65536' isn't a number from 0 to 65535"),
    ("name\nA\n\nA,B\n", [], 1, "bad:4: a table begins with the names of its columns"),
    ("name,system\nA,1\n", [], 1, "bad:2: system: '1' isn't of the form 0000.0000.0001"),
    ("name,prefix\nA,10.0.0.01\n", [], 1, "bad:2: prefix: '10.0.0.01' isn't of the form"),
    ("name\nA\nA\n", [], 1, "bad:3: a second router 'A'"),
    ("name,label\nA,100\n", [], 1, "bad:2: a label without an id"),
    ("a,b,mac_a\nA,B,01:00:00:00:00:00\n", [], 1, "bad:2: mac_a:"),
    ("a,b\nA,B,C\n", [], 1, "bad:2: more values than columns"),
    ("name\nA\n\na,b\nA,Z\n", [], 1, "bad:5: b: no router is named 'Z'"),
    ("name\nA\n", ["--label-base", "1048575", "--bsl", "7"], 2, "--bsl: invalid choice"),
    ("a,b\nA,B\n", ["--label-base", "1048575"], 1, "--label-base 1048575: the last label would be 1048576"),
    (b"a,b\n\xff,B\n", [], 1, "bad:2: not a text in UTF-8"),
    ("a,b\nA,B\n", ["--metric", "0"], 2, "--metric: 0 isn't a number from 1 to 16777214"),
    ("a,b\nA,B\n", ["--prefix-base", "224.0.0.1"], 2, "224.0.0.1 isn't an address"),
    ("<graphml>\n<graph>\n", [], 1, "bad:3: not XML: no element found"),
    ("<html/>", [], 1, "bad: not GraphML"),
    ("<graphml/>", [], 1, "bad: no nodes"),
    ('<graphml><graph><node id="1"/>\n<edge source="1" target="2"/></graph></graphml>', [], 1, "bad:2: no node has the id '2'"),
    ('<graphml><graph><node id="1"/>\n<node id="1"/></graph></graphml>', [], 1, "bad:2: a second node of id '1'"),
    ('<!DOCTYPE x [<!ENTITY a "b">]><graphml/>', [], 1, "bad:1: declares entities"),
    (GRAPH.format("", NODES + '\n<edge source="1" target="2"><data key="w">fast</data></edge>'), ["--metric-key", "cost"], 1,
     "bad:2: cost 'fast' isn't a number above 0"),
    (GRAPH.format("", NODES), ["--metric-key", "cost"], 1, "bad: no edge has 'cost'; edges have no data"),
    ("{\n}}", [], 1, "bad:2: not JSON"),
    ("{}", [], 1, "bad: no LSPs"),
    ('{"areas":[{"levels":[{"id":2,"lsps":[{"lsp":{"id":"A"}}]}]}]}', [], 1, "areas[0].levels[0].lsps[0].lsp.id: 'A' isn't an LSP ID"),
    ('{"areas":[{"levels":[{"id":2,"lsp":{"id":"A.00-00"}}]}]}', [], 1, "areas[0].levels[0]: contains only the last LSP"),
    ("[]", [], 1, "bad: no database"),
    (b"\xd4\xc3\xb2\xa2", ["--format", "capture"], 1, "bad: refused record 0 1 Magic"),
    (b"\x0a\x0d\x0d\x0a", [], 1, "bad: the capture ends within a block"),
]  # fmt: skip
if not os.access(DUMP, os.X_OK):
    ERRORS = [row for row in ERRORS if isinstance(row[0], str) or b"a,b" in row[0]]


if __name__ == "__main__":
    unittest.main()
