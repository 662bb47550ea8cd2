"""The course of a replay: which frame was sent, delivered, lost or repeated by which line.

Schedule, report and capture hold it all, but none of them shows where one event of a `settle` line ends and the next begins. So
the flooding is repeated by the independent implementation in tools/independent, and each frame that it sends must be the
capture's next. What became of a packet is read from the report and the capture: each of its BFR-ids is in one copy, one
delivery or one drop. The independent implementation forwards a packet only where these leave two readings. So it is with the
hellos of `handshake`, the interfaces that they bring up or down, and the answers of `check`.
"""
import copy

from . import frames
from .domain import Domain, independent
from .texts import ANSWERS, HELLO_LINES, INTERFACES
from .trouble import Trouble

import hellos as independent_hellos
import quiet as independent_quiet

MOST_EVENTS, MOST_IN_FLIGHT = 16_000_000, 500_000


class Item:
    """A frame in flight. Only a data frame has an injection, BFR-ids, a sub-domain, a target and a header, and perhaps a tunnel."""

    __slots__ = ("record", "a", "b", "injection", "ids", "subdomain", "target", "header", "tunnel")

    def __init__(self, record, a, b):
        self.record, self.a, self.b = record, a, b
        self.injection, self.ids, self.subdomain, self.target = None, (), None, b
        self.header = self.tunnel = None

    @property
    def is_tunnelled(self):
        return self.tunnel is not None


class Packet:
    """A packet that a router is to forward: what its copies have in common, and its BFR-ids that aren't accounted for yet."""

    def __init__(self, injection, subdomain, key, ttl, ids):
        self.injection, self.subdomain, self.key, self.ids = injection, subdomain, key, set(ids)
        self.ttl = ttl  # of its copies


class Step:
    """What one line of the schedule did: frames sent and ended, and its lines of the report."""

    def __init__(self, line, text):
        self.line, self.text = line, text
        self.sent, self.ended, self.repeated = [], [], []
        self.told, self.ends = [], []
        self.databases = {}
        self.events = 0


class Stop(Exception):
    """The run reached a limit here, and its report says so."""


def reader_of(domain, schedule, report, records):
    """A run of the independent implementation, by the command that these are a replay of: `handshake` sends hellos, and `check`
    has lines of its own. A line that was rejected tells nothing."""
    words = report.end.split()
    accepted = schedule[: int(words[1]) - 1] if words[0] == "refused" else schedule
    first = {line.split()[0] for line in accepted if line.strip() and not line.startswith("#")}
    has_hellos = any(frames.is_hello(record.octets) for record in records)
    if has_hellos or first & set(HELLO_LINES) or any(told.kind in INTERFACES for told in report.told):
        return independent_hellos.Handshake(domain.confs)
    return (independent_quiet.Check if first & set(ANSWERS) else independent.Replay)(domain.confs)


class Course:
    """All steps of a replay, line by line."""

    def __init__(self, domain, schedule, report, records):
        # a copy: events change configurations
        self.domain = domain = Domain(copy.deepcopy(domain.confs))
        self.report, self.records = report, records
        self.reader = reader_of(domain, schedule, report, records)
        self.routers = self.reader.routers
        self.has_hellos = isinstance(self.reader, independent_hellos.Handshake)
        self.queues = {(a, end["peer_at"]): [] for a in range(len(domain.routers)) for end in domain.ends(a)}
        self.ways = [(a, end["peer_at"]) for a in range(len(domain.routers)) for end in domain.ends(a)]
        self.link_at = {(a, end["peer_at"]): link for a in range(len(domain.routers)) for link, end in enumerate(domain.ends(a))}
        # with hellos, all interfaces begin down
        self.down_at_start = [(a, b) for a, b in self.ways if self.has_hellos]
        self.hellos = {way: [] for way in self.ways}
        self.in_flight = self.injections = 0
        self.events = self.reader.events
        self.next_record = self.next_told = 0
        self.touched, self.steps, self.injected = set(range(len(domain.routers))), [], {}
        self.start, self.step = self.databases(), Step(0, "")
        for number, text in enumerate(schedule, 1):
            if not self.line(number, text):
                break
        self.check_end()

    # Lines

    def line(self, number, text):
        """Does one line; False where the run ended here."""
        self.step = Step(number, text)
        self.steps.append(self.step)
        words = [word for word in text.encode().split(b" ") if word]
        if not words or text.startswith("#"):
            return True
        if self.report.end.startswith((f"refused {number} text ", f"refused {number} event ")) and words[0] != b"settle":
            return False
        try:
            event = self.reader.parse(words)
        except ValueError as fault:
            if self.report.end.startswith(f"refused {number} text "):
                return False
            raise Trouble(f"line {number} of the schedule is invalid ({fault}), but the report doesn't reject it")
        try:
            self.do(event)
        except Stop:
            return False
        self.step.databases = self.databases()
        return True

    def do(self, event):
        if event[0] in ANSWERS:
            return self.answer(event)
        if event[0] != "settle":
            return self.event(*event)
        for done in range(event[1]):
            before = self.events, self.next_record
            if self.has_hellos:
                self.hello_round()
            self.round()
            if self.next_record == before[1] and not self.in_flight:
                # The domain is at rest, so the other rounds only count.
                return self.count((event[1] - done - 1) * (self.events - before[0]))

    def hello_round(self):
        """What comes first in a round with hellos: each router sends one on each circuit that works, and then they arrive."""
        for a, b in self.ways:
            if self.reader.adjacencies[a, b].works:
                self.event("hello", a, b)
        for a, b in self.ways:
            for _ in range(len(self.hellos[a, b])):
                self.event("greet", a, b, 0)

    def round(self):
        """One round: each router sends on each interface that is up, then each frame in flight arrives."""
        for a, b in self.ways:
            router, link = self.routers[a], self.link_at[a, b]
            if not router.up[link]:
                continue
            if router.due[link] or router.srm[link] or router.ssn[link]:
                self.event("send", a, b)
            else:
                self.count(1)
        for a, b in self.ways:
            for _ in range(len(self.queues[a, b])):
                self.event("take", a, b, 0)

    def count(self, events):
        self.events += events
        self.step.events += events
        if self.events > MOST_EVENTS:
            raise Stop

    def event(self, name, *words):
        if self.in_flight >= MOST_IN_FLIGHT and name in ("inject", "take", "send", "again"):
            raise Stop
        if name not in HELLO_LINES:
            self.count(1)
        try:
            getattr(self, "do_" + name)(*words)
        except (IndexError, TypeError, KeyError):
            raise self.wrong(f"`{name}` isn't possible here")

    def wrong(self, why):
        return Trouble(f"schedule, report and capture aren't of one replay of this domain: line {self.step.line}: {why}")

    # Events

    def do_send(self, a, b):
        for link, octets in self.routers[a].send(self.link_at[a, b]):
            self.expect_control(a, link, octets)

    def do_take(self, a, b, place):
        item = self.remove(a, b, place)
        link = self.link_at[b, a]
        if not self.routers[b].up[link]:
            self.ended(item, "link")
            self.drop_whole(item)
        elif item.injection is None:
            self.ended(item, "taken")
            self.take_control(b, link, item)
        else:
            self.ended(item, "taken")
            self.take_data(b, link, item)

    def do_lose(self, a, b, place):
        item = self.remove(a, b, place)
        self.ended(item, "lost")
        self.drop_whole(item)

    def do_again(self, a, b, place):
        item = self.queues[a, b][place]
        self.queues[a, b].append(item)
        self.in_flight += 1
        self.step.repeated.append(item)

    def do_down(self, a, b):
        self.touched.add(a)
        self.routers[a].end_down(self.link_at[a, b])
        self.step.ends.append((a, b, False))

    def do_up(self, a, b):
        self.touched.add(a)
        self.routers[a].end_up(self.link_at[a, b])
        self.step.ends.append((a, b, True))

    def do_tick(self, a):
        self.touched.add(a)
        self.routers[a].tick()
        if self.has_hellos:
            self.handshake("tick", a)

    def do_restart(self, a):
        if self.has_hellos:
            self.handshake("restart", a)
        self.touched.add(a)
        self.routers[a].start()

    def do_relabel(self, a, subdomain, bits, label):
        self.change("relabel", a, subdomain, bits, label)

    def do_leave(self, a, subdomain):
        self.change("leave", a, subdomain)

    def do_join(self, a, subdomain):
        self.change("join", a, subdomain)

    def change(self, *event):
        """A router's labels or sub-domains change, and with them the router of the domain, which has the same configuration."""
        if self.routers[event[1]].change_fault(event):
            raise self.wrong(f"`{event[0]}` isn't possible here")
        self.touched.add(event[1])
        self.routers[event[1]].change(event)

    def do_inject(self, a, subdomain, bits, ids, ttl, entropy, payload):
        self.injections += 1
        self.injected[self.injections] = (self.step.line, a, subdomain, sorted(set(ids)))
        own = next(sub["id"] for sub in self.routers[a].conf["subs"] if sub["sd"] == subdomain)
        packet = Packet(self.injections, subdomain, (entropy, own, payload), ttl, ids)
        self.account(a, packet, lambda: self.routers[a].inject(subdomain, bits, ids, ttl, entropy, payload))

    # Hellos, and the answers of `check`

    def handshake(self, *event):
        """An event of the handshake, done by the independent implementation; the interfaces that it changes."""
        before = len(self.reader.report)
        try:
            self.reader.hello_event(event, self.step.line)
        except independent.Refused:
            if self.report.end.startswith(f"refused {self.step.line} event "):
                raise Stop
            raise self.wrong(f"`{event[0]}` isn't possible here")
        changes = self.reader.report[before:]
        self.count(len(changes))
        for text in changes:
            told = self.tell_text(text)
            a, b = self.domain.place[told.router], self.domain.place[told.neighbor]
            self.touched.add(a)
            self.step.ends.append((a, b, told.kind == "up"))

    def do_hello(self, a, b):
        self.handshake("hello", a, b)
        record = self.take_record()
        if record.octets != self.reader.hellos[a, b][-1]:
            raise self.wrong(f"frame {record.number} isn't the hello that {self.domain.name(a)} sends")
        item = Item(record, a, b)
        self.hellos[a, b].append(item)
        self.step.sent.append(item)

    def do_greet(self, a, b, place):
        works = self.reader.adjacencies[b, a].works
        self.ended(self.hellos[a, b].pop(place), "taken" if works else "link")
        self.handshake("greet", a, b, place)

    def do_forget(self, a, b, place):
        self.ended(self.hellos[a, b].pop(place), "lost")
        self.handshake("forget", a, b, place)

    def do_break(self, a, b):
        self.handshake("break", a, b)

    def do_mend(self, a, b):
        self.handshake("mend", a, b)

    def answer(self, event):
        """A line `quiet` or `cover`: the report's next line is what the independent implementation answers."""
        try:
            self.reader.do(event, self.step.line)
        except independent.Refused:
            raise self.wrong(f"`{event[0]}` isn't possible here")
        self.tell_text(self.reader.report[-1])

    # What becomes of a frame

    def take_control(self, b, link, item):
        self.touched.add(b)
        out = {"sent": [], "got": [], "drops": [], "passed": False}
        octets = item.record.octets
        self.routers[b].pdu(link, octets[17 : 14 + frames.number(octets, 12, 2)], out)
        for way, answer in out["sent"]:
            self.expect_control(b, way, answer)
        for _ in out["drops"]:
            self.tell(b, None)

    def take_data(self, b, link, item):
        forward = lambda: self.routers[b].frame(link, item.record.octets)
        if item.target != b:
            return self.pass_on(b, item, forward)
        header = item.header
        self.account(b, Packet(item.injection, item.subdomain, key_of(header), header.ttl - 1, item.ids), forward)

    def pass_on(self, b, item, forward):
        """A tunnel packet is forwarded unchanged, or dropped as a whole."""
        copy, told = self.copy_of_tunnel(b, item), self.told_of(b, item.injection, set(item.ids))
        if told and (told.cause == "outer" and item.tunnel.ttl > 1 or told.cause not in ("outer", "route")):
            told = None
        if copy and (told is None or not any(cause == "route" for cause, _ in forward()["drops"])):
            return self.put_data(copy, item.injection)
        self.tell(b, item.injection)

    def copy_of_tunnel(self, b, item):
        copy = self.peek_copy(b)
        if copy is None or copy.tunnel is None or (copy.ids, copy.subdomain) != (item.ids, item.subdomain):
            return None
        same = (copy.tunnel.destination, copy.header.ttl) == (item.tunnel.destination, item.header.ttl)
        is_next = same and copy.tunnel.ttl == item.tunnel.ttl - 1 and key_of(copy.header) == key_of(item.header)
        return copy if is_next else None

    def account(self, a, packet, forward):
        """Finds the deliveries, drops and copies that a router made of a packet.

        The report's next line may be of a later visit of the same packet, as in a loop, and the next frame may be of a similar
        packet. Where TTL and BFR-ids don't decide, `forward` does: what the independent implementation makes of the packet."""
        dropped = None
        while packet.ids:
            told, copy = self.told_at(a, packet), self.copy_at(a, packet)
            if told and copy and told.cause == "none" and set(told.ids) & set(copy.ids):
                if dropped is None:
                    dropped = {bfr_id for cause, what in forward()["drops"] if cause == "none" for bfr_id in what[1]}
                told, copy = (told, None) if set(told.ids) <= dropped else (None, copy)
            if copy:
                self.put_data(copy, packet.injection)
                packet.ids -= set(copy.ids)
            elif told:
                self.tell(a, packet.injection)
                packet.ids -= set(told.ids)
            else:
                name = self.domain.name(a)
                raise self.wrong(f"neither report nor capture has what {name} does with injection {packet.injection}")

    def told_at(self, a, packet):
        """The report's next line where it can be of this packet at this visit."""
        told = self.told_of(a, packet.injection, packet.ids)
        is_now = told and (told.is_got or told.cause == "none" or told.cause == "ttl" and packet.ttl <= 0)
        return told if is_now else None

    def told_of(self, a, injection, ids):
        told = self.peek_told()
        return told if told and self.is_told(told, a, injection) and told.ids and set(told.ids) <= ids else None

    def copy_at(self, a, packet):
        """The capture's next frame where it can be a copy of this packet."""
        copy = self.peek_copy(a)
        if copy is None or copy.subdomain != packet.subdomain or copy.header.ttl != packet.ttl:
            return None
        return copy if copy.ids and set(copy.ids) <= packet.ids and key_of(copy.header) == packet.key else None

    def drop_whole(self, item):
        self.tell(item.b, item.injection)

    # The next line of the report, the next frame of the capture

    def peek_told(self):
        return self.report.told[self.next_told] if self.next_told < len(self.report.told) else None

    def is_told(self, told, router, injection):
        is_now = told.is_of_a_frame and told.line == self.step.line
        return is_now and told.router == self.domain.name(router) and told.injection == injection

    def tell(self, router, injection):
        told = self.peek_told()
        if told is None or not self.is_told(told, router, injection):
            raise self.wrong(f"the report's next line isn't what {self.domain.name(router)} dropped")
        self.accept(told)

    def tell_text(self, text):
        told = self.peek_told()
        if told is None or told.text != text:
            raise self.wrong(f"the report's next line isn't `{text}`")
        self.accept(told)
        return told

    def accept(self, told):
        self.next_told += 1
        self.step.told.append(told)

    def take_record(self):
        if self.next_record >= len(self.records):
            raise self.wrong("the capture has fewer frames than were sent")
        record = self.records[self.next_record]
        if record.second != self.step.line:
            raise self.wrong(f"frame {record.number} of the capture was sent by line {record.second}")
        self.next_record += 1
        return record

    def expect_control(self, a, link, octets):
        record = self.take_record()
        if record.octets != octets:
            raise self.wrong(f"frame {record.number} isn't what {self.domain.name(a)} sends")
        self.put(Item(record, a, self.domain.ends(a)[link]["peer_at"]))

    def peek_copy(self, a):
        """The capture's next frame as a data frame that the router sends in this line; None where it isn't."""
        if self.next_record >= len(self.records) or self.records[self.next_record].second != self.step.line:
            return None
        record = self.records[self.next_record]
        found, b = frames.data_of(record.octets), self.domain.peer_of(a, record.octets)
        return None if found is None or b is None else data_item(self.domain, record, a, b, *found)

    def put_data(self, item, injection):
        self.next_record += 1
        item.injection = injection
        self.put(item)

    def put(self, item):
        self.queues[item.a, item.b].append(item)
        self.in_flight += 1
        self.step.sent.append(item)

    def remove(self, a, b, place):
        self.in_flight -= 1
        return self.queues[a, b].pop(place)

    def ended(self, item, how):
        self.step.ended.append((item, how))

    # Databases and the end

    def databases(self):
        """The LSDBs of the routers that this line touched: LSP ID, sequence number, whether it is live, checksum."""
        held = {}
        for place in sorted(self.touched):
            entries = self.routers[place].entries.values()
            held[place] = tuple(sorted((e["id"], e["seq"], e["life"] > 0, e["sum"]) for e in entries if e["seq"]))
        self.touched = set()
        return held

    def check_end(self):
        if self.next_record < len(self.records):
            raise self.wrong(f"frame {self.records[self.next_record].number} of the capture is more than was sent")
        if self.next_told < len(self.report.told):
            raise self.wrong(f"the report says more than happened: {self.report.told[self.next_told].text}")


def key_of(header):
    """What all copies of a packet have in common."""
    return header.entropy, header.bfir, header.payload


def data_item(domain, record, a, b, header, tunnel):
    """A data frame as an item, with the BFR-ids that its BIFT-id gives it at its target; None where that has no such BIFT-id."""
    item = Item(record, a, b)
    item.header, item.tunnel = header, tunnel
    if tunnel:
        item.target = domain.by_prefix.get(tunnel.destination)
    triple = None if item.target is None else domain.triple(item.target, header.is_mpls, header.bift)
    if triple is None or triple[1] != header.bits:
        return None
    item.subdomain = triple[0]
    item.ids = tuple(triple[2] * triple[1] + position for position in frames.positions(header.bitstring))
    return item
