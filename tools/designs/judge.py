"""Whether a design keeps its promises: what each case has shown, beside what is promised."""
import dataclasses
import functools
import math

from common.layout import hops_from, neighbors_without

from .share import Finding
from .copies import Tree

LEAST = ("spare_ttl",)  # promises of at least so much; the others are of at most so much
LOSSES = ("lost_unseen", "lost_disagreeing", "outage_ms")


@dataclasses.dataclass
class Row:
    """A promise to a stream, or of the links, and the worst case of it."""

    promise: str
    stream: str
    bound: object
    holds: bool
    worst: object  # in the unit of the bound; for `covered` and `disjoint` how many receivers it doesn't hold for
    case: int
    affected: list  # names of receivers or links, in that case
    broken: list  # the cases in which it doesn't hold
    tried: int  # in how many cases it was


class Findings:
    """What each case has shown, by case and flow."""

    def __init__(self, design):
        self.design, self.flows = design, design.flows()
        self.cases = {}
        self.known = {}  # values of paths, which many cases have in common
        self.legs = {}  # by stream: for each ingress the flows
        for number, flow in enumerate(self.flows):
            legs = self.legs.setdefault(flow.stream, [[] for _ in design.streams[flow.stream].ingresses])
            legs[flow.leg].append(number)

    def add(self, result):
        """Takes up the result of a share."""
        trees = [Tree.of_lists(lists) for lists in result["trees"]]
        for number, findings in result["cases"]:
            self.cases[number] = {flow: Finding.of_list(parts, trees) for flow, parts in findings}

    def missing(self):
        return [number for number in range(len(self.design.cases)) if number not in self.cases]


class View:
    """What a case has shown of a stream."""

    def __init__(self, findings, case, stream):
        self.number, self.known = case, findings.known
        self.case, self.stream = findings.design.cases[case], findings.design.streams[stream]
        self.times = findings.design.times
        shown = findings.cases[case]
        # for each ingress the findings by entropy; none for an ingress that failed
        self.legs = [[shown[number] for number in leg if number in shown] for leg in findings.legs[stream]]
        self.alive = [leg for leg in self.legs if leg]
        gone = self.case.routers
        self.ids = [bfr_id for bfr_id, place in self.stream.receivers.items() if place not in gone] if self.alive else []

    @functools.cached_property
    def covered(self):
        """The BFR-ids that get each packet from some ingress, whatever its entropy, once the routers agree."""
        from_legs = [set.intersection(*(set(it.cover) for it in leg)) for leg in self.alive]
        return set().union(*from_legs)

    def uncovered(self):
        return [bfr_id for bfr_id in self.ids if bfr_id not in self.covered]

    @functools.cached_property
    def hit(self):
        """The BFR-ids of which some packet is lost before the routers agree."""
        found = set()
        for it in (it for leg in self.legs for it in leg):
            found.update(it.unseen, *(ids for _, ids in it.rounds))
        return found

    def missed(self, bfr_id, lost_of):
        """For packets one after the other whether no ingress reaches a receiver; each ingress takes its entropies in turn."""
        hits = [[bfr_id in lost_of(it) for it in leg] if leg else [True] for leg in self.legs]
        turns = math.lcm(*map(len, hits))
        return [all(leg[turn % len(leg)] for leg in hits) for turn in range(turns)]

    def unseen_of(self, bfr_id):
        return self.missed(bfr_id, lambda it: it.unseen)

    def lost_unseen(self, bfr_id):
        return most_of(self.stream.unseen_packets, self.unseen_of(bfr_id))

    def rounds_lost(self, bfr_id):
        """The rounds of flooding in which packets for a receiver are lost, and how many of each round."""
        many = self.times.packets_in_a_round(self.stream)
        rounds = sorted({number for leg in self.legs for it in leg for number, ids in it.rounds if bfr_id in ids})
        lost = {number: self.lost_in(bfr_id, number, many) for number in rounds}
        return {number: packets for number, packets in lost.items() if packets}

    def lost_in(self, bfr_id, number, many):
        return most_of(many, self.missed(bfr_id, lambda it: [k for found, ids in it.rounds if found == number for k in ids]))

    def lost_disagreeing(self, bfr_id):
        return sum(self.rounds_lost(bfr_id).values())

    def outage_ms(self, bfr_id):
        """From the failure to the last packet that is lost."""
        rounds = self.rounds_lost(bfr_id)
        is_hit = rounds or any(self.unseen_of(bfr_id))
        return round((self.times.unseen_ms if is_hit else 0) + max(rounds, default=0) * self.times.round_ms, 3)

    def paths(self, bfr_id):
        """Links, hops and milliseconds of the path of each flow that reaches a receiver."""
        reached = [it.tree.paths.get(bfr_id) for leg in self.alive for it in leg if bfr_id in it.cover]
        return [path for path in reached if path] or [(0, 0, 0)]  # a router reaches itself without a link

    def hops(self, bfr_id):
        return max(links for links, _, _ in self.paths(bfr_id))

    def spare_ttl(self, bfr_id):
        return self.stream.ttl - max(hops for _, hops, _ in self.paths(bfr_id))

    def delay_ms(self, bfr_id):
        return round(max(delay for _, _, delay in self.paths(bfr_id)), 3)

    def values(self, promise):
        """The value of a promise for each receiver that is covered; of losses only those that aren't 0."""
        if promise in LOSSES:
            values = {bfr_id: getattr(self, promise)(bfr_id) for bfr_id in self.ids if bfr_id in self.hit & self.covered}
            return {bfr_id: value for bfr_id, value in values.items() if value}
        of_paths = tuple((id(it.tree), tuple(it.cover)) for leg in self.alive for it in leg)
        key = promise, self.stream.name, tuple(self.ids), of_paths
        if key not in self.known:
            self.known[key] = {bfr_id: getattr(self, promise)(bfr_id) for bfr_id in self.ids if bfr_id in self.covered}
        return self.known[key]

    def both_lost(self):
        """The receivers that neither ingress of a redundant pair reaches while the failure is unseen."""
        return [bfr_id for bfr_id in self.ids if bfr_id in self.hit and any(self.unseen_of(bfr_id))]

    def name(self, domain, bfr_id):
        return domain.name(self.stream.receivers[bfr_id])


def most_of(many, hits):
    """How many of packets one after the other are lost at most, where those of each turn with a hit are."""
    whole, rest = divmod(many, len(hits))
    return whole * sum(hits) + min(rest, sum(hits))


# Promises


def rows(findings):
    """All promises of a design, in a fixed order."""
    design, found = findings.design, []
    for number, stream in enumerate(design.streams):
        views = [View(findings, case, number) for case in range(len(design.cases))]
        for promise, bound in stream.promises.items():
            if bound is not False and (promise != "disjoint" or stream.is_pair):
                found.append(row_of(design, views, promise, bound))
    if "load_mbit" in design.promises:
        found.append(load_row(findings, design.promises["load_mbit"]))
    return found


def is_tried(view, promise):
    """Whether a case is about a promise: two links that fail together may take both ways of a redundant pair."""
    return view.ids and (promise != "disjoint" or view.case.kind in ("link", "router", "group"))


def row_of(design, views, promise, bound):
    """A promise to a stream. Receivers that a case leaves without the stream for good are the matter of `covered` alone."""
    name, worst, broken, tried = views[0].stream.name, None, [], 0
    for view in views:
        if is_tried(view, promise):
            tried += 1
            value, affected = value_of(view, promise, bound)
            if not holds(promise, bound, value):
                broken.append(view.number)
            if worst is None or rank(promise, value, affected) > rank(promise, worst[0], worst[2]):
                worst = value, view, affected
    if worst is None:
        return Row(promise, name, bound, True, None, 0, [], [], 0)
    value, view, affected = worst
    names = [view.name(design.domain, bfr_id) for bfr_id in affected]
    return Row(promise, name, bound, not broken, value, view.number, names, broken, tried)


def rank(promise, value, affected):
    """How bad a case is: by the value, and of equal values by how many receivers it concerns."""
    return -value if promise in LEAST else value, len(affected)


def value_of(view, promise, bound):
    """The worst value of a promise in a case, and the BFR-ids of the receivers that break the promise, or that have it."""
    if promise in ("covered", "disjoint"):
        missing = view.uncovered() if promise == "covered" else view.both_lost()
        return len(missing), missing
    values = view.values(promise)
    if not values:
        return (view.stream.ttl if promise in LEAST else 0), []
    worst = (min if promise in LEAST else max)(values.values())
    breaking = [bfr_id for bfr_id, value in values.items() if not holds(promise, bound, value)]
    return worst, breaking or [bfr_id for bfr_id, value in values.items() if value == worst]


def holds(promise, bound, value):
    if promise in ("covered", "disjoint"):
        return value == 0
    return value >= bound if promise in LEAST else value <= bound


# Loads


def weight(design, flow):
    """What one copy of a flow's packets is on a link: its share of the stream in Mbit/s, or of a packet."""
    stream = design.streams[flow.stream]
    return (1 if stream.mbit is None else stream.mbit) / len(stream.entropies[flow.leg])


def loads(findings, case):
    """For each direction of a link what it carries in a case, and what it would carry by unicast replication."""
    found = {}
    for number, it in findings.cases[case].items():
        share = weight(findings.design, findings.flows[number])
        for way, (copies, unicast) in it.tree.links.items():
            before, before_unicast = found.get(way, (0, 0))
            found[way] = before + copies * share, before_unicast + unicast * share
    return found


def load_row(findings, bound):
    design, worst, broken = findings.design, (0, 0, []), []
    for case in range(len(design.cases)):
        found = loads(findings, case)
        highest = max((load for load, _ in found.values()), default=0)
        over = [way for way, (load, _) in found.items() if load > bound + 1e-9]
        if over:
            broken.append(case)
        if highest > worst[0]:
            worst = highest, case, over or [way for way, (load, _) in found.items() if load == highest]
    highest, case, ways = worst
    names = [design.way_name(*way) for way in sorted(ways)]
    return Row("load_mbit", "all", bound, not broken, round(highest, 3), case, names, broken, len(design.cases))


@dataclasses.dataclass
class LinkLoad:
    """The highest load of a direction of a link, what unicast replication would send there then, and the case."""

    way: tuple
    load: float
    unicast: float
    case: int


def highest_loads(findings):
    """The highest load of each direction that carries something, the highest first."""
    found = {}
    for case in range(len(findings.design.cases)):
        for way, (load, unicast) in loads(findings, case).items():
            if way not in found or load > found[way].load + 1e-9:
                found[way] = LinkLoad(way, round(load, 3), round(unicast, 3), case)
    return sorted(found.values(), key=lambda it: (-it.load, it.way))


def total_loads(findings, case=0):
    """The sums over all links of what BIER and unicast replication send."""
    found = loads(findings, case).values()
    return round(sum(load for load, _ in found), 3), round(sum(unicast for _, unicast in found), 3)


# Tunnels


def repeated_copies(findings, case=0):
    """The directions that carry a packet more than once for one set: stream, direction, most copies beyond one. Without a failure
    unless another case is named."""
    found = {}
    for number, it in findings.cases[case].items():
        for way, many in it.tree.repeated.items():
            key = findings.flows[number].stream, way
            found[key] = max(found.get(key, 0), many)
    return sorted(((stream, way, many) for (stream, way), many in found.items()), key=lambda it: (-it[2], it[0], it[1]))


def gains(findings, case=0):
    """For each non-BFR at which tunnels part what links would carry less if it were a BFR, the most first."""
    found = {}
    for number, it in findings.cases[case].items():
        for router, many in it.tree.gains.items():
            found[router] = found.get(router, 0) + many * weight(findings.design, findings.flows[number])
    return sorted(((router, round(saved, 3)) for router, saved in found.items()), key=lambda it: (-it[1], it[0]))


# Parts


def parts(design, case):
    """The routers that a failure cuts off from the largest part of the domain, without those that failed."""
    neighbors = neighbors_without(design.domain, case.cut())
    left, found = set(range(len(neighbors))) - set(case.routers), []
    while left:
        part = set(hops_from(min(left), neighbors))
        found.append(sorted(part))
        left -= part
    found.sort(key=lambda part: (-len(part), part))
    return [place for part in found[1:] for place in part]
