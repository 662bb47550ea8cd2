"""Schedules by rule and seed: which links and routers fail, and how frames are lost, reordered and repeated during convergence.

A schedule may only name frames that are in flight: those that the capture has, and that no line has delivered or lost.
"""
import itertools
import random

from . import frames
from .layout import hops_from, neighbors_without
from .trouble import Trouble

MOST_ROUNDS = 1000  # of one settle line


class Failure:
    """What fails together: links, or a router with all its links."""

    def __init__(self, name, links, routers=()):
        self.name, self.links, self.routers = name, links, routers


class Rule:
    """What a sweep tries: every combination of failure, rates and seed is one run, by its number from 0."""

    def __init__(self, domain, options):
        self.domain, self.options = domain, options
        self.failures = failures(domain, options)
        self.rounds = {}  # of a settle line, by the links that are cut
        self.axes = [self.failures, options["lose"], options["reorder"], options["repeat"], options["seeds"]]

    def count(self):
        total = 1
        for axis in self.axes:
            total *= len(axis)
        return total

    def case(self, run):
        """The combination of a run: failure, rates, seed. Neighboring runs have different failures."""
        chosen = []
        for axis in self.axes:
            run, place = divmod(run, len(axis))
            chosen.append(axis[place])
        return chosen

    def failure_name(self, run):
        return self.case(run)[0].name

    def rounds_to_rest(self, cut):
        """Rounds after which the domain without those links is at rest: in each one LSPs and packets go a link further."""
        cut = frozenset(cut)
        if cut not in self.rounds:
            self.rounds[cut] = min(MOST_ROUNDS, 2 * self.longest_path(cut) + 6)
        return self.rounds[cut]

    def longest_path(self, cut):
        """The most links of a shortest path, without those that are cut."""
        left = neighbors_without(self.domain, cut)
        return max(max(hops_from(a, left).values()) for a in range(len(left)))


def failures(domain, options):
    kind, links = options["fail"], [(a, b) for a, b, _, _ in domain.links()]
    none = Failure("none", ())
    if kind == "none":
        return [none]
    if kind == "each":
        return [none, *(failure_of(domain, [link]) for link in links)]
    if kind == "pairs":
        return [failure_of(domain, pair) for pair in itertools.combinations(links, 2)] or [none]
    if kind == "routers":
        return [none, *(router_failure(domain, router, links) for router in domain.routers)]
    if kind == "groups":
        return [none, *(failure_of(domain, [tuple(link) for link in group]) for group in options["groups"])]
    # At random: the same sets in every run of the same sweep.
    count = options["fail_count"]
    chance = random.Random(f"{kind} {count} {links}")
    return [failure_of(domain, chance.sample(links, min(int(kind), len(links)))) for _ in range(count)]


def failure_of(domain, links):
    return Failure("+".join(f"{domain.name(a)}-{domain.name(b)}" for a, b in links) or "none", tuple(links))


def router_failure(domain, router, links):
    own = tuple(link for link in links if router.place in link)
    return Failure(f"router {router.name}", own, (router.place,))


def echo_line(domain, options):
    """A packet from a router to itself."""
    ingress = options["ingresses"][0]
    bfr_id = domain.routers[ingress].id_in(options["sd"])
    return f"inject {domain.name(ingress)} {options['sd']} {options['bsl']} {bfr_id} 1 0 -"


class Writer:
    """Writes one schedule while a driver does it.

    A round is: each router sends on each interface that is up, in random order; then each frame that was in flight is delivered
    or lost, in random order. What is sent meanwhile is in flight in the next round.
    """

    def __init__(self, rule, driver, run):
        self.rule, self.domain, self.driver = rule, rule.domain, driver
        self.failure, self.lose, self.reorder, self.repeat, seed = rule.case(run)
        self.cut = {way for a, b in self.failure.links for way in ((a, b), (b, a))}
        self.chance = random.Random(f"run {run} seed {seed}")
        self.ways = [(a, end["peer_at"]) for a in range(len(self.domain.routers)) for end in self.domain.ends(a)]
        self.in_flight = {way: [] for way in self.ways}  # whether each frame is a packet
        self.down, self.packets, self.is_cut, self.has_failed = set(), 0, False, False
        rates = f"lose {self.lose}, reorder {self.reorder}, repeat {self.repeat}, seed {seed}"
        self.lines = [f"# Run {run}: failing {self.failure.name}; {rates}."]  # that are done
        self.pending = []  # lines that aren't, each with its event

    # Lines

    def add(self, line, *event):
        self.pending.append((line, event))

    def event(self, name, *places):
        """The line of an event; the first words of an event are indexes of routers."""
        named = [self.domain.name(place) for place in places[:2]]
        self.add(" ".join([name, *named, *map(str, places[2:])]), name, *places)

    def inject(self):
        """A packet for all receivers that haven't failed, from an ingress that hasn't failed; nothing where there is none."""
        options, gone = self.rule.options, self.failure.routers if self.has_failed else ()
        ingresses = [place for place in options["ingresses"] if place not in gone]
        ids = [bfr_id for bfr_id in options["ids"] if not gone or not self.is_gone(bfr_id, gone)]
        if not ingresses or not ids:
            return
        ingress, entropy = self.chance.choice(ingresses), self.chance.randrange(1 << 20)
        payload = f"{self.packets:04x}"
        self.packets += 1
        words = [options["sd"], options["bsl"], ",".join(map(str, ids)), options["ttl"], entropy, payload]
        self.add(" ".join(["inject", self.domain.name(ingress), *map(str, words)]), "inject", ingress)

    def is_gone(self, bfr_id, gone):
        owners = self.domain.owners(self.rule.options["sd"], bfr_id)
        return bool(owners) and all(router.place in gone for router in owners)

    def settle(self):
        """The domain comes to rest, which a further round must not change."""
        self.look()
        line = f"settle {self.rule.rounds_to_rest(self.cut if self.down else ())}"
        self.driver.skip([line])
        self.lines.append(line)
        self.in_flight = {way: [] for way in self.ways}
        self.add("settle 1", "settle")

    # What the driver makes of them

    def look(self):
        """Has the driver do the lines, and counts what is in flight after each of them."""
        pending, self.pending = self.pending, []
        sent = self.driver.do([line for line, _ in pending])
        for place, (line, event) in enumerate(pending):
            self.follow(event, sent.get(place, []))
            # A router that owes nothing on a link sends nothing, and nothing changes.
            if event[0] != "send" or place in sent:
                self.lines.append(line)

    def follow(self, event, sent):
        if event[0] == "settle" and sent:
            raise Trouble("the domain doesn't come to rest")
        if event[0] in ("take", "lose"):
            self.in_flight[event[1:3]].pop(event[3])
        elif event[0] == "again":
            self.in_flight[event[1:3]].append(False)
        for octets in sent:
            self.in_flight[self.way_of(event, octets)].append(not frames.is_isis(octets))

    def way_of(self, event, octets):
        """The sender and the receiver of a frame that an event sent."""
        if event[0] == "send":
            return event[1:3]
        sender = event[2] if event[0] == "take" else event[1]
        return sender, event[1] if frames.is_isis(octets) else self.domain.peer_of(sender, octets)

    # A run

    def round(self):
        ends = [way for way in self.ways if way not in self.down]
        self.chance.shuffle(ends)
        for a, b in ends:
            self.event("send", a, b)
        self.arrivals()

    def arrivals(self):
        """What is in flight arrives, or is lost."""
        self.look()
        ways = [way for way, queue in self.in_flight.items() if queue]
        self.chance.shuffle(ways)
        for a, b in ways:
            left = list(self.in_flight[a, b])
            while left:
                self.arrive(a, b, left)

    def arrive(self, a, b, left):
        """One of the frames that are left on a link is delivered, or lost."""
        place = self.chance.randrange(len(left)) if self.chance.random() < self.reorder else 0
        is_packet = left.pop(place)
        if self.is_cut and (a, b) in self.cut or self.chance.random() < self.lose:
            return self.event("lose", a, b, place)
        # Only frames of IS-IS can come twice.
        if not is_packet and self.chance.random() < self.repeat:
            self.event("again", a, b, place)
        self.event("take", a, b, place)

    def unseen(self):
        """Packets before the routers at a cut link notice: what they send over it is lost."""
        self.is_cut = self.has_failed = self.rule.options["unseen"] > 0
        for _ in range(self.rule.options["unseen"] if self.cut else 0):
            self.inject()
            self.arrivals()
            while self.pending:
                self.arrivals()

    def ends_of_links(self):
        ends = sorted(self.cut)
        self.chance.shuffle(ends)
        return ends

    def write(self):
        """Packets before a cut is noticed; a packet that is in flight while it is noticed; packets during convergence, and one
        after it."""
        self.settle()
        self.unseen()
        self.inject()
        for _ in range(self.chance.randrange(3)):
            self.round()
        self.has_failed, self.is_cut = True, False
        for a, b in self.ends_of_links():
            self.event("down", a, b)
            self.down.add((a, b))
        for _ in range(self.rule.options["packets"]):
            self.inject()
            for _ in range(self.chance.randrange(1, 3)):
                self.round()
        self.settle()
        self.inject()
        self.settle()
        if self.cut and self.rule.options["mend"]:
            self.mend()
        self.look()
        return self.lines

    def mend(self):
        self.has_failed = False
        for a, b in self.ends_of_links():
            self.event("up", a, b)
            self.down.discard((a, b))
            self.inject()
            self.round()
        self.settle()
        self.inject()
        self.settle()
