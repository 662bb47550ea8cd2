"""Designs: what is counted, by hand on small domains; their files and the errors in them; runs that break; and the pages."""
import csv
import io
import json
import os
import subprocess
import unittest
import xml.etree.ElementTree as xml

from support import EXAMPLES, INDEPENDENT, needs, program, scratch, tool, write
from test_sweep import LATE, SSH, script
from common import spread
from designs import copies, design_file, judge, script as script_of, share

FORK = os.path.join(EXAMPLES, "fork", "domain.toml")
RING = os.path.join(EXAMPLES, "ring", "domain.toml")
PROMISES = {"lost_unseen": 2, "lost_disagreeing": 0, "hops": 2, "spare_ttl": 6, "load_mbit": 9}
# A program that breaks on each schedule with a failure.
BREAKS = """#!/bin/sh
[ $# = 0 ] && exec {program}
[ "$1" = check ] && grep -q "^down" "$3" && exit 9
exec {program} "$@"
"""
STREAM = {"name": "tv", "ingress": "A", "receivers": "all", "mbit": 10, "ttl": 8}


def checking():
    """The built program where it has `check`, or the independent one."""
    done = subprocess.run([program()], capture_output=True, text=True)
    return program() if "check" in done.stdout else INDEPENDENT


def toml(value):
    if isinstance(value, dict):
        return "{ " + ", ".join(f"{json.dumps(key)} = {toml(it)}" for key, it in value.items()) + " }"
    return "[" + ", ".join(map(toml, value)) + "]" if isinstance(value, list) else json.dumps(value)


def design(name, domain=RING, stream=(), **parts):
    """A design file of one stream of 10 Mbit/s from A to all others, with some keys changed."""
    keys = {"domain": domain, "times": {"unseen_packets": 3}, "promises": PROMISES, **parts}
    lines = [f"{key} = {toml(value)}" for key, value in keys.items()]
    lines += ["[[stream]]", *(f"{key} = {toml(value)}" for key, value in {**STREAM, **dict(stream)}.items())]
    return write(name + ".toml", "\n".join(lines) + "\n")


def designed(path, *words, env=None, using=None):
    return tool("design", path, "--program", using or checking(), "--jobs", "2", *words, env=env)


def answer(path, *words):
    """What the tool answers as JSON: its promises by name and stream, and the whole."""
    out = scratch("answer.json")
    done = designed(path, "--json", out, *words)
    assert done.returncode in (0, 1), done.stderr
    with open(out) as file:
        value = json.load(file)
    return {(it["promise"], it["stream"]): it for it in value["promises"]}, value, done


class Ring(unittest.TestCase):
    """A sends to B and over B to C, and to D. Each link of the ring fails, and each router."""

    @classmethod
    def setUpClass(cls):
        cls.promises, cls.value, cls.done = answer(
            design("ring", failures={"routers": True}), "--csv", scratch("ring.csv"), "--junit", scratch("ring.xml")
        )

    def test_status_and_table(self):
        self.assertEqual(self.done.returncode, 1)
        self.assertIn("4 routers, 4 links, 1 stream; failures: 4 links, 4 routers\n6 promises, 5 broken\n", self.done.stdout)
        self.assertRegex(self.done.stdout, r"(?m)^hops +tv +≤ 2 +3 +fails in 2 of 8 +A-B +B$")

    def test_promises(self):
        for promise, stream, worst, failure, affected, broken in (
            ("covered", "tv", 0, None, [], []),
            # three packets enter before A and B see that their link is cut, and are for B and C
            ("lost_unseen", "tv", 3, "A-B", ["B", "C"], ["A-B", "A-D", "B-C", "router B"]),
            # A sends those for B to D, which doesn't know yet, and sends them back; as B does with those for D, and, where its
            # link to C is cut, with those for C
            ("lost_disagreeing", "tv", 1, "A-B", ["B"], ["A-B", "A-D", "B-C"]),
            ("hops", "tv", 3, "A-B", ["B"], ["A-B", "A-D"]),
            ("spare_ttl", "tv", 5, "A-B", ["B"], ["A-B", "A-D"]),
        ):
            it = self.promises[promise, stream]
            found = it["worst"], it["failure"], it["affected"], it["broken_in"]
            self.assertEqual(found, (worst, failure, affected, broken), promise)
        self.assertEqual({it["tried"] for key, it in self.promises.items() if key[1] == "tv"}, {8})  # but for A, which fails

    def test_loads(self):
        self.assertEqual(self.promises["load_mbit", "all"]["worst"], 10)
        loads = {(it["from"], it["to"]): (it["load"], it["unicast"], it["failure"]) for it in self.value["loads"]}
        self.assertEqual(loads["A", "B"], (10, 20, "none"))
        self.assertEqual(loads["D", "C"], (10, 20, "A-B"))

    def test_csv(self):
        with open(scratch("ring.csv"), newline="") as file:
            rows = list(csv.DictReader(file))
        cut = [row for row in rows if row["failure"] == "A-B"]
        links = [(row["from"], row["to"], row["copies"], row["unicast"], row["load"]) for row in cut if row["what"] == "link"]
        self.assertEqual(links, [("A", "D", "1", "3", "10"), ("C", "B", "1", "1", "10"), ("D", "C", "1", "2", "10")])
        self.assertEqual({row["to"]: row["hops"] for row in cut if row["what"] == "receiver"}, {"B": "3", "C": "2", "D": "1"})

    def test_junit(self):
        suite = xml.parse(scratch("ring.xml")).getroot()
        self.assertEqual((suite.get("tests"), suite.get("failures")), ("6", "5"))
        broken = [case.get("name") for case in suite if case.find("failure") is not None]
        self.assertEqual(broken[1:3], ["lost while routers disagree ≤ 0 packets", "hops ≤ 2"])


class Designs(unittest.TestCase):
    def test_parts(self):
        """A failure that leaves the domain in parts is named, and the others go on."""
        promises, value, done = answer(design("parts", FORK, promises={}))
        self.assertEqual(value["parts"], {"A-P": ["A"], "P-C": ["C"], "P-D": ["D"]})
        self.assertEqual(promises["covered", "tv"]["broken_in"], ["A-P", "P-C", "P-D"])
        self.assertIn("P-C cuts off C\n", done.stdout)

    def test_tunnels(self):
        """P is a non-BFR on the path to both: the link to it carries two copies, and one would do if it were a BFR."""
        _, value, done = answer(design("fork", FORK, promises={}, failures={"links": False}))
        self.assertEqual(value["repeated_copies"], [{"stream": "tv", "from": "A", "to": "P", "copies": 2}])
        self.assertEqual(value["better_as_bfr"], [{"router": "P", "saves": 10}])
        self.assertIn("P should become a BFR first: it saves 10 Mbit/s over all links\n", done.stdout)
        self.assertEqual(done.returncode, 0)

    def test_a_redundant_pair(self):
        """From A and from C to B and D: no link takes both ways, and so no packet is lost; both feeds over one link would be."""
        pair = {"ingress": ["A", "C"], "receivers": ["B", "D"]}
        promised = {"disjoint": True, "lost_unseen": 0, "lost_disagreeing": 0}
        promises, _, done = answer(design("pair", stream=pair, promises=promised))
        self.assertEqual(done.returncode, 0, done.stdout)
        self.assertEqual(promises["disjoint", "tv"]["tried"], 4)
        over_one = {"ingress": ["A", "C"], "receivers": ["D"]}
        promises, _, _ = answer(design("one-way", FORK, stream=over_one, promises={"disjoint": True}))
        self.assertEqual(promises["disjoint", "tv"]["broken_in"], ["P-D"])

    def test_milliseconds(self):
        times = {"detection_ms": 40, "spf_ms": 10, "delay_ms": 2, "delays": {"C/D": 5}}
        promised = {"outage_ms": 55, "delay_ms": 12, "lost_unseen": 5}
        promises, _, _ = answer(design("timed", stream={"packets_per_second": 90}, times=times, promises=promised))
        # 50 ms before A sends elsewhere, and a round of 5 ms in which D sends back
        self.assertEqual([promises["outage_ms", "tv"][key] for key in ("worst", "failure", "holds")], [55, "A-B", True])
        self.assertEqual(promises["lost_unseen", "tv"]["worst"], 5)  # 90 a second in 50 ms, rounded up
        self.assertEqual([promises["delay_ms", "tv"][key] for key in ("worst", "affected")], [9, ["B"]])  # A-D, D-C, C-B

    def test_groups_and_chosen_failures(self):
        failures = {"links": ["B/A"], "routers": ["C"], "group": [{"name": "duct", "links": ["A/B", "C/D"], "routers": []}]}
        _, value, _ = answer(design("groups", failures=failures, promises={}))
        self.assertEqual([it["name"] for it in value["cases"]], ["none", "A-B", "router C", "duct"])
        self.assertEqual(value["parts"], {"duct": ["B", "C"]})

    def test_page(self):
        folder = scratch("page")
        os.makedirs(folder)
        done = designed(design("shown"), "--html", os.path.join(folder, "it.html"))
        self.assertEqual(done.returncode, 1, done.stderr)
        with open(os.path.join(folder, "it.html")) as file:
            page = file.read()
        self.assertEqual(page.count("<svg"), page.count("Replay of this case"))
        links = set(part.split('"')[0] for part in page.split('<p><a href="')[1:])
        self.assertTrue(links)
        for link in links:
            self.assertRegex(link, r"#line=\d+$")
            self.assertTrue(os.path.exists(os.path.join(folder, link.split("#")[0])), link)

    def test_inputs_are_kept(self):
        path = design("kept")
        done = designed(path, "--json", path)
        self.assertEqual(done.returncode, 1)
        self.assertIn("would be overwritten", done.stderr)


class Errors(unittest.TestCase):
    def refused(self, path, wanted):
        done = designed(path)
        self.assertEqual((done.returncode, done.stdout), (1, ""), wanted)
        self.assertEqual(done.stderr.count("\n"), 1, done.stderr)
        self.assertIn(wanted, done.stderr)

    def test_one_line_with_the_place(self):
        for stream, parts, wanted in (
            ({"ingress": "Z"}, {}, "bad.toml:6: stream[0].ingress: no router of the domain has that name"),
            ({"receivers": ["B", "Y"]}, {}, 'bad.toml:7: stream[0].receivers[1]: "Y": no router of the domain has that name'),
            ({"receivers": ["B", "B"]}, {}, "bad.toml:7: stream[0].receivers[1]: B is twice a receiver"),
            ({"ttl": 0}, {}, "bad.toml:9: stream[0].ttl: expected a whole number from 1 to 255"),
            ({"bsl": 512}, {}, "bad.toml:10: stream[0].bsl: A doesn't support 512 bits in sub-domain 0"),
            ({"colour": "red"}, {}, "bad.toml:10: stream[0].colour: unknown key"),
            ({"entropies": [[0], [1]]}, {}, "bad.toml:10: stream[0].entropies: two lists are for two ingresses"),
            ({"ingress": ["A", "A"]}, {}, "are two routers"),
            ({}, {"failures": {"links": ["A/C"]}}, 'failures.links[0]: "A/C": no link joins routers of these names'),
            ({}, {"failures": {"group": [{"name": "empty"}]}}, "names no link and no router"),
            ({}, {"times": {"detection_ms": 50}}, "bad.toml:2: times.detection_ms: detection_ms, spf_ms and delay_ms go together"),
            ({}, {"times": {"detection_ms": 5, "spf_ms": 5, "delay_ms": 1}}, "the key packets_per_second is missing"),
            ({}, {"promises": {"hop": 3}}, "bad.toml:3: promises.hop: unknown key"),
            ({}, {"promises": {"outage_ms": 3}}, "bad.toml:3: promises.outage_ms: needs the [times]"),
            ({}, {"promises": {"disjoint": True}}, "bad.toml:3: promises.disjoint: no stream has two ingresses"),
            ({}, {"domain": "gone.toml"}, "gone.toml: No such file or directory"),
        ):
            with self.subTest(wanted):
                self.refused(design("bad", stream=stream, **parts), wanted)

    def test_what_is_no_design(self):
        self.refused(write("broken.toml", 'domain = "x"\n[[stream]\n'), "broken.toml:2: not TOML: ")
        self.refused(write("empty.toml", ""), "empty.toml: the key domain is missing")
        self.refused(scratch("none.toml"), "none.toml: No such file or directory")

    def test_a_program_that_breaks(self):
        """A run that breaks is tried again; one that always does ends the tool with a line."""
        text = BREAKS.format(program=checking())
        done = designed(design("breaks"), "--tries", "2", using=script("breaks.sh", text))
        self.assertEqual((done.returncode, done.stdout), (1, ""))
        self.assertIn("status 9", done.stderr.splitlines()[-1])

    def test_a_program_that_answers_late(self):
        done = designed(design("late"), "--limit", "5", "--tries", "1", using=script("design-late.sh", LATE.format(program=checking())))
        self.assertEqual((done.returncode, done.stdout), (1, ""))
        self.assertIn("a run took more than 5 seconds", done.stderr)

    def test_a_program_without_check(self):
        text = '#!/bin/sh\necho "usage: replay CONF SCHEDULE FRAMES"; exit 2\n'
        done = designed(design("older"), using=script("older.sh", text))
        self.assertIn("status 2, usage", done.stderr)

    @needs("parallel", "parallel")
    def test_machines(self):
        hosts = write("design-hosts", ":\ndead\n")
        path = design("machines", failures={"routers": True})
        done = designed(path, "--hosts", hosts, env={"PARALLEL_SSH": script("design-ssh.sh", SSH)})
        self.assertEqual(done.stdout, designed(path).stdout, done.stderr)
        self.assertIn("machine dead", done.stderr)


def copy(a, b, ids, ttl, outer=copies.NO_TUNNEL, source=b"", is_at_end=True):
    return copies.Copy(a, b, 0, tuple(ids), 0, ttl, outer, source, is_at_end)


class Counting(unittest.TestCase):
    def test_sending_order(self):
        """Copies come after the one that they are made from, whatever their order in the capture."""
        found = [copy(2, 3, [4], 6), copy(0, 1, [2, 4], 8), copy(0, 5, [6], 8), copy(1, 2, [4], 7), copy(5, 6, [6], 8, 254, b"x")]
        order = [(it.a, it.b) for it in copies.in_sending_order(found)]
        self.assertEqual(order, [(0, 1), (0, 5), (1, 2), (5, 6), (2, 3)])

    def test_a_tree_with_tunnels(self):
        """From 0 over 1 and 2, which are non-BFRs, to 3 and 4: two copies on each of two links, of which 2 would save both."""
        tunnels = [copy(a, b, [bfr_id], 9, outer, b"s", False) for bfr_id in (3, 4) for a, b, outer in ((0, 1, 255), (1, 2, 254))]
        tree = copies.tree_of([*tunnels, copy(2, 3, [3], 9, 253, b"s"), copy(2, 4, [4], 9, 253, b"s")], 9, {(0, 1): 1.5})
        self.assertEqual(tree.paths, {3: (3, 1, 1.5), 4: (3, 1, 1.5)})
        self.assertEqual(tree.links[0, 1], (2, 2))
        self.assertEqual(dict(tree.repeated), {(0, 1): 1, (1, 2): 1})
        self.assertEqual(dict(tree.gains), {1: 1, 2: 2})

    def test_packets_in_turn(self):
        yes, no = True, False
        for many, hits, wanted in ((3, [yes], 3), (3, [no], 0), (5, [yes, no], 3), (4, [yes, no, yes], 3), (0, [yes], 0)):
            self.assertEqual(judge.most_of(many, hits), wanted)

    def test_a_run_of_too_many_events(self):
        """The cases that ended are kept, and the others done in further runs; one that isn't at rest gets more rounds."""
        plan, asked = design_file.read_design(design("many")), []

        class Short(share.Share):
            def run(self, cases, is_patient):
                asked.append((list(cases), is_patient))
                return ([], list(cases)) if len(asked) == 2 else ([[number, {}] for number in cases[:2]], cases[2:])

            def add_rounds(self, found):
                pass

        found = Short(plan, "program", 1, []).results([1, 2, 3, 4])
        self.assertEqual([number for number, _ in found], [1, 2, 3, 4])
        self.assertEqual(asked, [([1, 2, 3, 4], False), ([3, 4], False), ([3, 4], True)])

    def test_a_report_that_ends_early(self):
        """What the lines up to the rejected one say; a `settle` that was done in part isn't counted as done."""
        report = b"3 quiet yes\n4 cover 2,3\n7 got B 1 2 000001\n7 drop C 1 ttl 3\n8 drop C - link -\nrefused 9 event 1 Events\n"
        marks = script_of.Marks(last={1: 0}, quiet=[3], cover={4: 0}, end=8)
        found = share.Outcome(None, [marks], report, b"")
        self.assertEqual((found.done, found.quiet, found.covers), (8, {3: "yes"}, {4: [2, 3]}))
        shown = found.findings(marks)[0]
        self.assertEqual((shown.cover, shown.got, shown.lost), ([2, 3], [2], [3]))

    def test_workers_end_with_the_status_of_their_runs(self):
        jobs = [json.dumps({"tool": "x", "runs": [0, 1]}), json.dumps({"tool": "x", "runs": [2]})]
        begun, out = [], io.StringIO()

        def begin(job):
            begun.append(job)
            return lambda number: {"run": number, **({"broken": "so"} if number == 1 else {})}

        self.assertEqual(spread.work(jobs, out, begin), 1)
        self.assertEqual((len(begun), out.getvalue().count("\n")), (1, 3))


if __name__ == "__main__":
    unittest.main()
