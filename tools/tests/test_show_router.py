"""show_router beside the independent implementation, table by table, and beside what FRR itself said; and bad words."""
import json
import os
import re
import subprocess
import unittest

from support import EXAMPLES, HERE, places, read, scratch, tool, write
from common import capture, frames
from common.domain import independent

import node as independent_node
import quiet as independent_quiet

PROGRAM = os.environ.get("SHOW_ROUTER") or os.path.join(places.ROOT, "crates", "show_router", "out", "show_router")
HAS_DUMP = unittest.skipUnless(os.access(places.DUMP, os.X_OK), "isis_dump isn't built")
LAB = ["core-1", "core-2", "core-3", "core-4", "access-1", "access-2", "access-3", "access-4"]
# the examples, a line of each, and a packet: sub-domain, length, BFR-ids, TTL, entropy
REPLAYS = {
    "replay-ring": ([0, 1, 3, 4, 9, 12, 16, 19], (0, 64, "1,2,3,4,9", 3, 1)),
    "replay-television": ([1, 5, 9, 14, 24], (0, 256, "1,2,3,4,5,6,7,8,9,10,11,12", 1, 5)),
    "replay-fork": ([1, 4], (0, 64, "1,2,3,4,5,6,7,8", 8, 2)),
    "replay-metro": ([1, 6], (0, 64, "1,2,3,4,5,6,7,8,65", 9, 0)),
    "replay-relabel": ([1, 6, 12], (0, 64, "1,2,3", 5, 0)),
    "replay-line": ([1, 3, 5], (0, 64, "1,2,3,4", 5, 0)),
    "check-television": ([7, 70, 78], (0, 256, "4,5,6,7,8,13", 2, 3)),
}


def run(*words, form=("--json",)):
    """What the program prints, and its status."""
    done = subprocess.run([PROGRAM, *map(str, words), *form], capture_output=True, text=True, timeout=120)
    return done.stdout, done.returncode


def rows(*words):
    """The rows of a table."""
    text, status = run(*words)
    assert status == 0, (words, text, status)
    return [json.loads(line) for line in text.splitlines()]


# ---- the tables by the independent implementation


def dotted(system):
    digits = system.hex()
    return f"{digits[:4]}.{digits[4:8]}.{digits[8:]}"


def numbers(octets):
    return ".".join(map(str, octets))


class Expected:
    """The tables of one router of the independent implementation. `flights` has the frames in flight over each interface, if they
    are known."""

    def __init__(self, router, confs, flights=None):
        self.router, self.confs, self.flights = router, confs, flights
        self.conf, self.view = router.conf, router.view()
        self.own = next(place for place, node in enumerate(self.view) if node["system"] == self.conf["system"])
        self.peers = [self.name(end["peer"]) for end in self.conf["ends"]]

    def name(self, system):
        return next((conf["name"] for conf in self.confs if conf["system"] == system), dotted(system))

    def lsp(self, lsp_id):
        flags = [[peer for peer, ids in zip(self.peers, sets) if lsp_id in ids] for sets in (self.router.srm, self.router.ssn)]
        head = {
            "lsp": f"{dotted(lsp_id[:6])}.{lsp_id[6]:02x}-{lsp_id[7]:02x}",
            "own": lsp_id[:6] == self.conf["system"],
            "router": self.name(lsp_id[:6]),
        }
        entry = self.router.entries.get(lsp_id)
        values = {"pdu_length": None, "sequence": None, "checksum": None, "lifetime": None, "flags": None}
        if entry:
            bits = entry["flags"]
            values = {
                "pdu_length": 27 + len(entry["content"]),
                "sequence": entry["seq"],
                "checksum": entry["sum"],
                "lifetime": entry["life"],
                "flags": f"{bits >> 3 & 15}/{bits >> 7}/{bits >> 2 & 1}",
            }
        return {**head, **values, "srm": flags[0], "ssn": flags[1]}

    def database(self):
        flagged = set().union(*self.router.srm, *self.router.ssn) - set(self.router.entries)
        return [self.lsp(lsp_id) for lsp_id in [*sorted(self.router.entries), *sorted(flagged)]]

    def interfaces(self):
        found = []
        for link, end in enumerate(self.conf["ends"]):
            is_up = self.router.up[link]
            out, back = self.flights[link] if self.flights is not None else (None, None)
            found.append({
                "interface": link,
                "peer": self.peers[link],
                "state": "Up" if is_up else "Down",
                "metric": end["metric"],
                "out": out,
                "in": back,
                "csnp_due": self.router.due[link],
                "owed": len(sent_now(self.router, link)) if is_up else 0,
            })
        return found

    def topology(self):
        found = []
        for place, node in enumerate(self.view):
            costs = self.router.dist_to(self.view, place)
            steps = self.router.tight(self.view, costs, self.own, place)
            found.append({
                "vertex": self.name(node["system"]),
                "system": dotted(node["system"]),
                "overload": node["overload"],
                "links": [f"{self.name(self.view[to]['system'])}:{metric}" for to, metric in sorted(node["edges"].items())],
                "cost": costs.get(self.own),
                "next_hops": [self.name(self.view[step]["system"]) for step in steps],
            })
        return found

    # BIER

    def planes(self):
        kinds, found = dict(self.conf["kinds"]), []
        for sub in self.conf["subs"]:
            if kinds[sub["sd"]] == "mpls":
                found += [(sub["sd"], length) for length, _, _ in sub["ranges"]]
            else:
                found += dict.fromkeys((sd, length) for (sd, length, _), _ in self.conf["table"] if sd == sub["sd"])
        return found

    def ids(self, sd):
        return sorted({sub[1] for node in self.view for sub in node["subs"] if sub[0] == sd and sub[1]})

    def owners(self, sd, bfr_id):
        return [node for node in self.view if any(sub[:2] == (sd, bfr_id) for sub in node["subs"])]

    def choice(self, triple, entropy, bfr_id):
        return self.router.choice(self.view, self.own, triple, entropy % 16, bfr_id)

    def reason(self, triple, bfr_id):
        owners = self.owners(triple[0], bfr_id)
        if len(owners) != 1:
            return "several routers have this BFR-id" if owners else "no router has this BFR-id"
        return "no path" if self.router.covers(owners[0], triple) else "its router supports no such length or set"

    def link_to(self, system):
        return next(link for link, end in enumerate(self.conf["ends"]) if end["peer"] == system)

    def birt(self):
        found = []
        for sd, length in self.planes():
            for bfr_id in self.ids(sd):
                found += self.birt_of((sd, length, (bfr_id - 1) // length), bfr_id)
        return found

    def birt_of(self, triple, bfr_id):
        owners = self.owners(triple[0], bfr_id)
        owner = owners[0] if len(owners) == 1 else None
        prefix = owner and next(sub[2] for sub in owner["subs"] if sub[0] == triple[0])
        head = {
            "sd": triple[0],
            "bsl": triple[1],
            "id": bfr_id,
            "prefix": prefix and numbers(prefix),
            "router": owner and self.name(owner["system"]),
        }
        chosen = sorted({self.choice(triple, entropy, bfr_id) for entropy in range(16)} - {None})
        if not chosen:
            is_own = owner is not None and owner["system"] == self.conf["system"]
            return [{**head, "nbr": None, "way": "local" if is_own else self.reason(triple, bfr_id)}]
        names = [(self.name(self.view[place]["system"]), is_direct) for place, is_direct in chosen]
        return [{**head, "nbr": name, "way": "direct" if is_direct else "tunnel"} for name, is_direct in names]

    def copies(self, triple, ids, entropy):
        """The BFR-ids of each copy, by where it goes, in the order of their least BFR-ids."""
        found = {}
        for bfr_id in ids:
            if self.view[self.own] not in self.owners(triple[0], bfr_id):
                found.setdefault(self.choice(triple, entropy, bfr_id), []).append(bfr_id)
        return [self.way(triple, *chosen, own) for chosen, own in found.items() if chosen]

    def way(self, triple, place, is_direct, ids):
        node = self.view[place]
        system = node["system"]
        link = self.link_to(system) if is_direct else self.router.next_link(self.view, self.own, place)
        bift = self.router.bift(next(sub for sub in node["subs"] if sub[0] == triple[0]), triple)
        return ids, {
            "nbr": self.name(system),
            "way": "direct" if is_direct else "tunnel",
            "interface": self.peers[link],
            "bift_id": bift,
        }

    def bift(self):
        found = []
        for sd, length in self.planes():
            ids = self.ids(sd)
            for si in sorted({(bfr_id - 1) // length for bfr_id in ids}):
                triple = (sd, length, si)
                if self.router.covers(self.view[self.own], triple):
                    found += self.bift_of(triple, [bfr_id for bfr_id in ids if (bfr_id - 1) // length == si])
        return found

    def bift_of(self, triple, ids):
        groups = []
        for entropy in range(16):
            copies = self.copies(triple, ids, entropy)
            group = next((classes for classes, own in groups if own == copies), None)
            if group is None:
                groups.append(([entropy], copies))
            else:
                group.append(entropy)
        head = {"sd": triple[0], "bsl": triple[1], "si": triple[2]}
        return [
            {**head, "classes": classes, "f_bm": own, **way} for classes, copies in groups for own, way in copies
        ]

    def packet(self, sd, length, ids, ttl, entropy):
        found = []
        for si in sorted({(bfr_id - 1) // length for bfr_id in ids}):
            own = sorted({bfr_id for bfr_id in ids if (bfr_id - 1) // length == si})
            found += self.packet_of((sd, length, si), own, ttl, entropy)
        return found

    def packet_of(self, triple, ids, ttl, entropy):
        def row(outcome, own, **values):
            rest = {key: values.get(key) for key in ("nbr", "way", "interface", "bift_id", "ttl", "reason")}
            return {"si": triple[2], "outcome": outcome, "ids": own, **rest}

        if not self.router.covers(self.view[self.own], triple):
            return [row("drop", ids, reason="no BIFT-id here for this length and set")]
        kept = next((sub["id"] for sub in self.conf["subs"] if sub["sd"] == triple[0] and sub["id"]), None)
        found = [row("deliver", [bfr_id]) for bfr_id in ids if bfr_id == kept]
        rest = [bfr_id for bfr_id in ids if bfr_id != kept]
        routed = [bfr_id for bfr_id in rest if self.choice(triple, entropy, bfr_id)]
        if ttl > 1:
            found += [row("copy", own, **way, ttl=ttl - 1) for own, way in self.copies(triple, rest, entropy)]
        elif routed:
            found.append(row("drop", routed, reason="TTL expired"))
        reasons = {bfr_id: self.reason(triple, bfr_id) for bfr_id in rest if bfr_id not in routed}
        for reason in REASONS:
            own = [bfr_id for bfr_id, why in reasons.items() if why == reason]
            found += [row("drop", own, reason=reason)] if own else []
        return found


REASONS = [
    "no router has this BFR-id",
    "several routers have this BFR-id",
    "its router supports no such length or set",
    "no path",
]


def sent_now(router, link):
    """The frames that a router would send now on a link; the router is left as it was."""
    kept = [set(ids) for ids in router.srm], [set(ids) for ids in router.ssn], list(router.due)
    sent = router.send(link)
    router.srm, router.ssn, router.due = kept
    return sent


def after_line(example, line):
    """The independent replay of an example after a line."""
    folder = os.path.join(EXAMPLES, example)
    with open(os.path.join(folder, "domain.toml"), "rb") as file:
        confs = independent.read_domain(file.read())
    replay = independent_quiet.Check(confs)
    with open(os.path.join(folder, "schedule"), "rb") as file:
        replay.run(file.readlines()[:line])
    return replay


def flights_of(replay, place):
    return [
        (len(replay.q[place, end["peer_at"]]), len(replay.q[end["peer_at"], place])) for end in replay.conf[place]["ends"]
    ]


@unittest.skipUnless(os.access(PROGRAM, os.X_OK), "show_router isn't built (rt ci show_router builds it)")
class ShowRouter(unittest.TestCase):
    def check_tables(self, expected, words, packet):
        for what in ("database", "interfaces", "topology", "birt", "bift"):
            with self.subTest(words=words, what=what):
                self.assertEqual(rows(*words, what), getattr(expected, what)())
        sd, length, ids, ttl, entropy = packet
        with self.subTest(words=words, what="packet"):
            wanted = expected.packet(sd, length, list(map(int, ids.split(","))), ttl, entropy)
            self.assertEqual(rows(*words, "packet", *packet), wanted)

    def test_routers_of_a_replay(self):
        """Each table of each router at some lines of the examples."""
        for example, (lines, packet) in REPLAYS.items():
            folder = os.path.join(EXAMPLES, example)
            files = [os.path.join(folder, name) for name in ("domain.toml", "schedule")]
            for line in lines:
                replay = after_line(example, line)
                confs = [{**router.conf} for router in replay.routers]
                for place, router in enumerate(replay.routers):
                    expected = Expected(router, confs, flights_of(replay, place))
                    self.check_tables(expected, ["replay", *files, line, confs[place]["name"]], packet)

    def test_a_router_on_a_capture(self):
        for example, router, records in (("node-television", "west-4", (0, 7, 36, 63)), ("node-damaged-lsp", None, (3,))):
            folder = os.path.join(EXAMPLES, example)
            name = router or read(os.path.join(folder, "words")).split()[2]
            with open(os.path.join(folder, "domain.toml"), "rb") as file:
                confs = independent.read_domain(file.read())
            conf = next(conf for conf in confs if conf["name"] == name)
            path = os.path.join(folder, "capture.pcap")
            for record in records:
                one = independent_node.Node(conf)
                for it in independent_node.records_of(open(path, "rb").read()):
                    if it[0] > record:
                        break
                    one.take(*it)
                words = ["node", os.path.join(folder, "domain.toml"), name, path, record]
                self.check_tables(Expected(one.router, confs), words, (0, 256, "1,2,3,4,5,6,7,8", 4, 0))

    @HAS_DUMP
    def test_costs_of_frr(self):
        """The costs and the next hops that FRR itself gave, on the frames that its neighbors sent to it."""
        folder = os.path.join(HERE, "frr", "topologies-single")
        conf, path = scratch("frr-single.toml"), os.path.join(folder, "capture.pcap")
        self.assertEqual(tool("import", path, "-o", conf).returncode, 0)
        count = len(list(capture.read_capture(path)))
        found = {it["vertex"]: it for it in rows("node", conf, "core-1", path, count, "topology")}
        costs, hops = said(os.path.join(folder, "topology.txt"))
        self.assertEqual({name: found[name]["cost"] for name in costs}, costs)
        self.assertEqual({name: sorted(found[name]["next_hops"]) for name in hops}, hops)

    def test_detail_is_isis_dumps(self):
        """TLVs are printed as isis_dump does: here those of A's LSP, as the example's guide has them."""
        files = [os.path.join(EXAMPLES, "replay-ring", name) for name in ("domain.toml", "schedule")]
        found = rows("replay", *files, 1, "A", "database", "detail")
        self.assertEqual([row["router"] for row in found], ["A", "B", "C", "D"])
        self.assertEqual(
            found[0]["details"],
            [
                "area 49.0001",
                "protocols cc",
                "name A",
                "reach 0000.0000.0002.00 metric 10",
                "reach 0000.0000.0004.00 metric 10",
                "prefix 10.0.0.1/32 metric 0",
                "  bier sd 0 id 1",
                "    labels bsl 64 max_si 0 label 100",
            ],
        )

    def test_the_guide(self):
        """Each run in the user guide prints what stands there, up to a line `...`."""
        count = 0
        for folder, words, shown in runs_of_the_guide():
            with self.subTest(words=words):
                done = subprocess.run([PROGRAM, *words], cwd=folder, capture_output=True, text=True, timeout=60)
                lines = done.stdout.splitlines()
                wanted = shown[: shown.index("...")] if "..." in shown else shown
                self.assertEqual((lines[: len(wanted)], done.returncode), (wanted, 0))
                self.assertTrue("..." in shown or len(lines) == len(wanted))
                count += 1
        self.assertGreater(count, 10)

    def test_columns(self):
        """The text for people, whole."""
        files = [os.path.join(EXAMPLES, "replay-ring", name) for name in ("domain.toml", "schedule")]
        text, status = run("replay", *files, 9, "A", "packet", 0, 64, "1,3,4,7", 8, 0, form=())
        self.assertEqual(status, 0)
        self.assertEqual(
            text.splitlines(),
            [
                "A packet at A",
                "SI  Outcome  BFR-ids  BFR-NBR  Way     Interface  BIFT-id  TTL  Reason",
                " 0  deliver  1        -        -       -          -        -    -",
                " 0  copy     3        B        direct  B              200    7  -",
                " 0  copy     4        D        direct  D              400    7  -",
                " 0  drop     7        -        -       -          -        -    no router has this BFR-id",
            ],
        )

    def test_bad_words(self):
        """One line each, and the status."""
        ring = [os.path.join(EXAMPLES, "replay-ring", name) for name in ("domain.toml", "schedule")]
        node = os.path.join(EXAMPLES, "node-television")
        parts = ["node", os.path.join(node, "domain.toml"), "west-4", os.path.join(node, "capture.pcap")]
        packet = ["replay", *ring, 1, "A", "packet"]
        usage = "usage: show_router"
        for words, start, status in (
            ([], usage, 2),
            (["replay", *ring, 1, "A"], usage, 2),
            (["replay", *ring, 1, "A", "database", "all"], usage, 2),
            (["replay", *ring, "x", "A", "birt"], usage, 2),
            (["replay", *ring, -1, "A", "birt"], usage, 2),
            (["handshake", *ring, 1, "A", "birt"], usage, 2),
            ([*packet, 0, 64, 1, 8], usage, 2),
            (["replay", *ring, 1, "Z", "birt"], "refused conf 6 Reference words[4]", 3),
            (["node", parts[1], "Z", parts[3], 1, "birt"], "refused conf 6 Reference words[2]", 3),
            (["replay", *ring, 20, "A", "birt"], "refused words lines 19", 2),
            ([*parts, 64, "birt"], "refused words records 63", 2),
            ([*packet, 0, 65, 1, 8, 0], "refused packet 2 Number", 2),
            ([*packet, 0, 64, 1, 0, 0], "refused packet 2 Number", 2),
            ([*packet, 0, 64, "-", 8, 0], "refused packet edge 1 NoEgress", 2),
            ([*packet, 0, 64, "3,0", 8, 0], "refused packet edge 2 IdZero", 2),
            ([*packet, 0, 64, "16385", 8, 0], "refused packet edge 3 SiLarge", 2),
            (["replay", ring[0], write("odd", "settle 1\ntake A B\n"), 2, "A", "birt"], "refused 2 text 1 Word", 4),
            (["replay", ring[0], write("odder", "take A B 0\n"), 1, "A", "birt"], "refused 1 event 5 NoFrame 0 0", 4),
            (["replay", ring[1], ring[1], 1, "A", "birt"], "refused conf 1 Toml -", 3),
            (["node", parts[1], "west-4", ring[1], 1, "birt"], "refused record 0 1 Magic", 8),
        ):
            with self.subTest(words=words):
                text, found = run(*words, form=())
                self.assertEqual((text.count("\n"), text[: len(start)], found), (1, start, status))
        self.assertEqual(run("replay", ring[0], "/nowhere", 1, "A", "birt"), ("", 5))

    def test_a_line_that_is_not_reached(self):
        """A bad line after LINE doesn't matter."""
        path = write("later", "settle 4\nnothing\n")
        ring = os.path.join(EXAMPLES, "replay-ring", "domain.toml")
        self.assertEqual([row["cost"] for row in rows("replay", ring, path, 1, "B", "topology")], [10, 0, 10, 20])


def runs_of_the_guide():
    """The runs of the program in the guide: their folder, their words, and the lines that they print there."""
    guide = read(os.path.join(places.ROOT, "docs", "user-guide.md"))
    section = re.search(r"^### `show_router`.*?(?=^##)", guide, re.S | re.M).group()
    folder, found = places.ROOT, []
    for block in re.findall(r"```text\n(.*?)```", section, re.S):
        for line in block.splitlines():
            if line.startswith("$ cd "):
                folder = os.path.normpath(os.path.join(folder, line[5:]))
            elif line.startswith("$ show_router "):
                found.append((folder, line.split()[2:], []))
            else:
                found[-1][2].append(line)
    return found


def said(path):
    """What FRR said on core-1 of IPv4: the cost to each router, and its next hops."""
    part = re.search(r"speak IP\n(.*?)\n\n", read(path), re.S)[1]
    costs, hops, vertex = {}, {}, None
    for line in part.splitlines():
        words = line.split()
        if line[:1].strip():
            vertex = words[0] if words[1:2] == ["TE-IS"] else None
            if vertex:
                costs[vertex], hops[vertex] = int(words[2]), [words[3]]
        elif vertex and words[0] in LAB:
            hops[vertex].append(words[0])
    return costs, {vertex: sorted(set(found)) for vertex, found in hops.items()}


if __name__ == "__main__":
    unittest.main()
