"""What is lost while routers disagree: after a failure packets enter between the rounds of flooding.

In a round each LSP crosses one link. Between two rounds a packet of each flow runs through the domain, in which some routers have
heard of the failure and others haven't; so packets are taken to be faster than flooding, and loops show. Which frames are in
flight is read from the capture, as `tools/sweep` does.
"""
import contextlib
import subprocess
import tempfile

from common import chance, driver, frames
from common.trouble import Trouble

from .script import Marks, Script

EVENTS = "event 1 Events"


def losses(share, entering):
    """By case and flow the rounds in which BFR-ids are lost. `entering` has for each case the BFR-ids by flow that enter."""
    found, left = {}, list(entering)
    while left:
        before = len(left)
        try:
            with live(share) as running:
                flooding = Flooding(share, running)
                while left:
                    found[left[0]] = flooding.case(share.design.cases[left[0]], entering[left[0]])
                    left.pop(0)
        except driver.Refused as refused:
            if EVENTS not in str(refused) or len(left) == before:
                raise
    return found


@contextlib.contextmanager
def live(share):
    """A run of `check` whose schedule goes on."""
    design = share.design
    stream = design.streams[0]
    echo = chance.echo_line(design.domain, {"ingresses": stream.ingresses, "sd": stream.sd, "bsl": stream.bsl})
    with tempfile.TemporaryDirectory() as folder:
        try:
            with driver.Driver(share.program, folder, design.domain_text, echo, share.limit, "check") as running:
                yield running
        except subprocess.TimeoutExpired:
            raise Trouble(f"a run took more than {share.limit} seconds")


class Flooding:
    """A domain in which failures happen in turn. The lines of its script are those that were done, but for `quiet`."""

    def __init__(self, share, running, only="all"):
        self.design, self.driver, self.at, self.ways = share.design, running, 0, {}
        self.script = Script(share.design, share.bounds_of(False), share.orders, only)
        self.script.begin()
        self.driver.skip(self.new_lines())

    def new_lines(self):
        at, self.at = self.at, len(self.script.lines)
        return self.script.lines[at:]

    def case(self, case, entering):
        """By flow the rounds in which BFR-ids are lost; the links come up again."""
        lost = self.cut(case, entering)
        self.script.up(case)
        self.driver.skip(self.new_lines())
        self.driver.taken()
        return lost

    def cut(self, case, entering):
        """By flow the rounds in which BFR-ids are lost, until the domain is quiet."""
        lost, least = {}, self.script.bounds.least(case)
        self.script.down(case)
        self.driver.skip(self.new_lines())
        self.driver.taken()
        for number in range(1, len(self.design.domain.routers) + 4):
            for flow, ids in self.round(entering):
                lost.setdefault(flow, []).append([number, ids])
            self.script.add("settle", 1)
            if number < least:
                self.driver.skip(self.new_lines())
            elif self.is_quiet():
                return lost
        raise Trouble(f"{case.name}: the domain doesn't come to rest")

    def is_quiet(self):
        self.driver.skip([*self.new_lines(), "quiet"])
        return self.driver.taken()[-1].endswith(" quiet yes")

    def round(self, entering):
        """A packet of each flow runs through the domain as its routers are now; the flows with the BFR-ids that are lost."""
        first, lost = self.driver.injections, {}
        for number, ids in entering.items():
            self.script.inject(number, ids)
        in_flight = self.done()
        while in_flight:
            for a, b in in_flight:
                self.script.add("take", self.design.domain.name(a), self.design.domain.name(b), 0)
            in_flight = self.done()
        flows = list(entering)
        for words in (line.split(" ") for line in self.driver.taken()):
            if words[1] == "drop" and words[3] != "-":
                lost.setdefault(flows[int(words[3]) - first - 1], []).extend(map(int, words[5].split(",")))
        return [(flow, sorted(ids)) for flow, ids in lost.items()]

    def done(self):
        """Does the new lines; the directions of the frames that they sent, in the order of sending."""
        sent = self.driver.do(self.new_lines())
        return [self.way(octets) for line in sorted(sent) for octets in sent[line]]

    def way(self, octets):
        addresses = octets[:12]
        if addresses not in self.ways:
            self.ways[addresses] = self.design.domain.sender_of(octets)
        if frames.is_isis(octets):
            raise Trouble("an IS-IS frame was sent between two rounds")
        return self.ways[addresses]


def replay_lines(share, case, only):
    """A schedule for `replay` of one case with the packets of one stream, or of all."""
    with live(share) as running:
        flooding = Flooding(share, running, only)
        named = flooding.script.named(case)
        if case.links:
            flooding.script.unseen(case, named, Marks())
            flooding.cut(case, {number: ids for number, ids in enumerate(named) if ids})
        flooding.script.last(case, named, Marks())
        return flooding.script.lines
