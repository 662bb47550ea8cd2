"""A share of a design's failures in one run of the program, and what is read from its report and capture."""
import os
import subprocess
import tempfile

from common import driver
from common.trouble import Trouble, read_octets, write_octets

from . import rounds
from .copies import Reader, along, copies_in, in_sending_order, tree_of, ways_by_id
from .script import Bounds, Script

EVENTS = "event 1 Events"


class Finding:
    """What is known of one flow in one case."""

    def __init__(self):
        self.unseen, self.rounds = [], []  # BFR-ids that are lost: before the failure is seen, and in which round of flooding
        self.cover, self.got, self.lost = [], [], []  # of the settled domain: covered, delivered and dropped
        self.tree = None  # an index into the trees of the share, or the tree

    def as_list(self):
        return [self.unseen, self.rounds, self.cover, self.got, self.lost, self.tree]

    @staticmethod
    def of_list(parts, trees):
        found = Finding()
        found.unseen, found.rounds, found.cover, found.got, found.lost, tree = parts
        found.tree = trees[tree]
        return found


def numbers(word):
    return [] if word == b"-" else [int(number) for number in word.split(b",")]


class Outcome:
    """The report and the capture of a run, case by case."""

    def __init__(self, script, marks, report, frames):
        self.script, self.marks, self.frames = script, marks, frames
        lines = report.split(b"\n")
        self.end = lines[-2].decode() if len(lines) > 1 else ""
        self.done = self.lines_done()
        self.quiet, self.covers = {}, {}  # by line
        self.got, self.lost = {}, {}  # by injection: BFR-ids
        self.counted = {injection for it in marks for injection in it.last}
        for line in lines[:-2]:
            self.read(line.split(b" "))

    def lines_done(self):
        words = self.end.split(" ")
        return int(words[2]) if words[:2] == ["done", "lines"] else int(words[1]) - 1 if words[0] == "refused" else 0

    def read(self, words):
        if words[1] == b"got":
            injection = int(words[3])
            if injection in self.counted:
                self.got.setdefault(injection, []).append(int(words[4]))
        elif words[1] == b"drop":
            if words[3] != b"-":
                self.lost.setdefault(int(words[3]), []).extend(numbers(words[5]))
        elif words[1] == b"quiet":
            self.quiet[int(words[0])] = b" ".join(words[2:]).decode()
        elif words[1] == b"cover":
            self.covers[int(words[0])] = numbers(words[2])

    def findings(self, marks):
        """What a case has shown, by flow."""
        found = {number: Finding() for number in marks.last.values()}
        for injection, number in marks.unseen.items():
            found[number].unseen = sorted(self.lost.get(injection, []))
        for line, number in marks.cover.items():
            found[number].cover = self.covers[line]
        for injection, number in marks.last.items():
            found[number].got = sorted(self.got.get(injection, []))
            found[number].lost = sorted(self.lost.get(injection, []))
        return found

    def is_whole(self, marks, findings, case, design):
        """Whether the domain was quiet and each BFR-id of the last packets is delivered or dropped."""
        flows = self.script.flows
        arrived = all(len(it.got) + len(it.lost) == len(design.ids(flows[number], case)) for number, it in findings.items())
        return arrived and all(self.quiet.get(line) == "yes" for line in marks.quiet)


class Share:
    """Cases of a design that a run takes in turn."""

    def __init__(self, design, program, limit, orders, path_links=0):
        self.design, self.program, self.limit, self.orders, self.path_links = design, program, limit, orders, path_links
        self.reader, self.trees, self.known = Reader(design.domain), [], {}
        self.bounds, self.flows, self.changed = {}, design.flows(), {}
        self.base = [ways_by_id((ids, (a, b)) for a, b, ids in order) for order in orders]

    def bounds_of(self, is_patient):
        if is_patient not in self.bounds:
            self.bounds[is_patient] = Bounds(self.design.domain, is_patient, self.path_links)
        return self.bounds[is_patient]

    def results(self, cases):
        """For each case its number with its findings by flow, trees as indexes into `trees`. A run that reaches the most events is
        continued by another one, and one that wasn't at rest in time is repeated with more rounds."""
        left, is_patient, found = list(cases), False, []
        while left:
            done, left_over = self.run(left, is_patient)
            found += done
            if not done and is_patient:
                raise Trouble(f"{self.design.cases[left[0]].name}: the domain doesn't come to rest")
            is_patient, left = not done, left_over
        self.add_rounds(found)
        return [[number, self.listed(findings)] for number, findings in found]

    def add_rounds(self, found):
        """What is lost while routers disagree, in the cases in which paths change."""
        entering = {number: self.entering(number, findings) for number, findings in found}
        lost = rounds.losses(self, {number: ids for number, ids in entering.items() if ids})
        for number, findings in found:
            for flow, its_rounds in lost.get(number, {}).items():
                findings[flow].rounds = its_rounds

    def entering(self, number, findings):
        """By flow the BFR-ids that may be lost while routers disagree on a case. Where one link fails, a router's topology is that
        before or that after, so it's only those with another path; of several links it may know of some."""
        many = len(self.design.cases[number].links)
        if many == 1:
            found = {flow: sorted(self.changed[flow, it.tree] & set(it.cover)) for flow, it in findings.items()}
        else:
            found = {flow: it.cover if many else [] for flow, it in findings.items()}
        return {flow: ids for flow, ids in found.items() if ids}

    def listed(self, findings):
        return [[number, it.as_list()] for number, it in findings.items()]

    def run(self, cases, is_patient):
        """The results of the cases that ended in time, and the others."""
        script = Script(self.design, self.bounds_of(is_patient), self.orders)
        script.begin()
        marks = [script.case(self.design.cases[number]) for number in cases]
        outcome = self.outcome(script, marks)
        copies = copies_in(outcome.frames, [it.span for it in marks], self.reader)
        done, left = [], []
        for place, number in enumerate(cases):
            findings = outcome.findings(marks[place]) if marks[place].end <= outcome.done else None
            if findings is not None and outcome.is_whole(marks[place], findings, self.design.cases[number], self.design):
                self.add_trees(findings, copies[place])
                done.append([number, findings])
            else:
                left.append(number)
        return done, left

    def add_trees(self, findings, copies):
        by_flow = {}
        for copy in copies:
            by_flow.setdefault(copy.flow, []).append(copy)
        for number, it in findings.items():
            it.tree = self.tree(number, by_flow.get(number, []))

    def tree(self, number, copies):
        """The index of the tree of these copies."""
        key = number, tuple(sorted(map(id, copies)))
        if key not in self.known:
            stream = self.design.streams[self.flows[number].stream]
            at = self.known[key] = len(self.trees)
            self.trees.append(tree_of(copies, stream.ttl, self.design.times.delays))
            ways = ways_by_id((copy.ids, (copy.a, copy.b)) for copy in along(copies))
            self.changed[number, at] = {bfr_id for bfr_id, path in ways.items() if path != self.base[number].get(bfr_id)}
        return self.known[key]

    def outcome(self, script, marks):
        with tempfile.TemporaryDirectory() as folder:
            report, status = ran(self.program, "check", folder, self.design.domain_text, script.lines, self.limit)
            found = Outcome(script, marks, report, read_octets(os.path.join(folder, "frames")))
            if status and EVENTS not in found.end:
                raise driver.trouble_of(status, found.end)
            return found

    def orders_of(self, case):
        """For each flow the copies of its packet in a case, in sending order."""
        script = Script(self.design, self.bounds_of(True), self.orders)
        script.begin()
        marks = script.case(self.design.cases[case])
        outcome = self.outcome(script, [marks])
        by_flow = {number: [] for number in range(len(script.flows))}
        for copy in copies_in(outcome.frames, [marks.span], self.reader)[0]:
            by_flow[copy.flow].append(copy)
        return [[[copy.a, copy.b, list(copy.ids)] for copy in in_sending_order(by_flow[number])] for number in by_flow]


def ran(program, command, folder, domain, lines, limit):
    """Runs the program on a domain and a schedule in a folder, where its capture is `frames`; its report and status."""
    write_octets(os.path.join(folder, "domain.toml"), domain.encode())
    write_octets(os.path.join(folder, "schedule"), "".join(line + "\n" for line in lines).encode())
    words = [program, command, "domain.toml", "schedule", "frames"]
    try:
        done = subprocess.run(words, cwd=folder, stdin=subprocess.DEVNULL, stdout=subprocess.PIPE, timeout=limit)
    except subprocess.TimeoutExpired:
        raise Trouble(f"a run took more than {limit} seconds")
    if done.returncode not in (0, 4) or not done.stdout:
        raise Trouble(f"{program} {command}: status {done.returncode}, {done.stdout.decode(errors='replace')[:80].strip()}")
    return done.stdout, done.returncode
