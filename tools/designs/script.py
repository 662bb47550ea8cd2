"""The schedule of a share of a design's failures: one after the other in one domain, which settles once.

For each failure packets enter the cut; both interfaces of each link go down; the domain settles; `quiet` and `cover` are asked,
and a packet of each flow shows its path; the links come up again.
"""
import dataclasses

from common.layout import hops_from, neighbors_without

from .copies import payload


@dataclasses.dataclass
class Marks:
    """Where a case is in a schedule: injections by their numbers, and lines."""

    unseen: dict = dataclasses.field(default_factory=dict)  # injection: flow
    last: dict = dataclasses.field(default_factory=dict)  # injection: flow, of the settled domain
    quiet: list = dataclasses.field(default_factory=list)
    cover: dict = dataclasses.field(default_factory=dict)  # line: flow
    span: tuple = (0, 0)  # the lines that send the copies that are counted
    end: int = 0  # the last line


class Bounds:
    """How many rounds of `settle` are enough. A patient one waits as long as any path can be."""

    def __init__(self, domain, is_patient, path_links):
        self.domain, self.is_patient, self.path_links = domain, is_patient, path_links
        self.longest = self.distance(range(len(domain.routers)), ())

    def distance(self, places, cut):
        """The most links between one of these routers and another one, without those that are cut."""
        neighbors = neighbors_without(self.domain, cut)
        return max((max(hops_from(place, neighbors).values()) for place in places), default=0)

    def settling(self):
        return self.patient(self.longest + 4)

    def least(self, case):
        """The rounds before which not all routers have heard of a failure: in each an LSP crosses a link."""
        ends = {place for link in case.links for place in link}
        return self.distance(ends, case.cut())

    def flooding(self, case):
        """Rounds in which all routers hear of a failure, and of its end."""
        return self.patient(self.least(case) + 3)

    def delivery(self):
        """Rounds in which packets arrive: some more links than without a failure."""
        return self.patient(max(self.longest, self.path_links) * 3 // 2 + 3)

    def patient(self, rounds):
        return max(rounds, len(self.domain.routers) + 4) if self.is_patient else rounds


class Script:
    """The lines of a schedule, and where each case is in them. `orders` has for each flow the copies of a packet in the domain
    without a failure, in sending order. `only` names the stream whose packets enter, where not those of all do."""

    def __init__(self, design, bounds, orders, only="all"):
        self.design, self.bounds, self.orders, self.only = design, bounds, orders, only
        self.flows, self.lines, self.injections = design.flows(), [], 0

    def add(self, *words):
        self.lines.append(" ".join(map(str, words)))
        return len(self.lines)

    def packet(self, number, ids):
        """The words of a packet's line before its payload."""
        flow = self.flows[number]
        stream = self.design.streams[flow.stream]
        listed = ",".join(map(str, ids))
        return self.design.domain.name(flow.ingress), stream.sd, stream.bsl, listed, stream.ttl, flow.entropy

    def inject(self, number, ids, is_counted=False):
        self.add("inject", *self.packet(number, ids), payload(number, is_counted))
        self.injections += 1
        return self.injections

    def on_links(self, word, ways):
        for a, b in sorted(ways):
            self.add(word, self.design.domain.name(a), self.design.domain.name(b))

    def begin(self):
        self.add("settle", self.bounds.settling())

    def named(self, case):
        """For each flow the BFR-ids that its packets name in a case."""
        return [self.ids(flow, case) for flow in self.flows]

    def case(self, case):
        """The lines of a case."""
        marks, named = Marks(), self.named(case)
        if case.links:
            self.unseen(case, named, marks)
            self.down(case)
            self.add("settle", self.bounds.flooding(case))
        marks.quiet.append(self.add("quiet"))
        marks.cover = {self.add("cover", *self.packet(number, ids)): number for number, ids in enumerate(named) if ids}
        self.last(case, named, marks)
        if case.links:
            self.up(case)
            marks.quiet.append(self.add("quiet"))
        marks.end = len(self.lines)
        return marks

    def last(self, case, named, marks):
        """Packets in the settled domain."""
        self.add(f"# {case.name}: the routers agree.")
        first = len(self.lines) + 1
        marks.last = {self.inject(number, ids, True): number for number, ids in enumerate(named) if ids}
        marks.span = first, self.add("settle", self.bounds.delivery())

    def ids(self, flow, case):
        is_one = self.only in ("all", self.design.streams[flow.stream].name)
        return self.design.ids(flow, case) if is_one else []

    def unseen(self, case, named, marks):
        """Packets that enter before the failure is seen."""
        self.add(f"# {case.name}: the failure is unseen.")
        for number, ids in enumerate(named):
            if ids:
                self.enter_cut(number, ids, case.cut(), marks)

    def down(self, case):
        self.add(f"# {case.name}: the routers at its ends see it.")
        self.on_links("down", case.cut())

    def up(self, case):
        self.on_links("up", case.cut())
        self.add("settle", self.bounds.flooding(case) + 1)

    def enter_cut(self, number, ids, cut, marks):
        """A packet that enters before the failure is seen: copies on links that are cut are lost, and the others arrive. Nothing
        where it crosses none of them."""
        if not any((a, b) in cut and set(ids) & set(own) for a, b, own in self.orders[number]):
            return
        marks.unseen[self.inject(number, ids)] = number
        left = set(ids)
        for a, b, own in self.orders[number]:
            here = left.intersection(own)
            if here:
                is_cut = (a, b) in cut
                self.add("lose" if is_cut else "take", self.design.domain.name(a), self.design.domain.name(b), 0)
                left -= here if is_cut else set()
