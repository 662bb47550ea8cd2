"""Where one injection's copies went, and what became of its BFR-ids.

With the schedule, the course of the replay has it. Without it, the capture's data frames are joined to trees: a copy comes from
a frame to its sender that has the same BFIR-id, entropy and payload, a TTL one higher and all its bits. A frame without such a
predecessor was sent by an injection, so each injection's line is known, and its number by their order.
"""
from . import frames
from .course import Course, data_item
from .trouble import Trouble


class Hop:
    """A copy on a link: the line that sent it, from where to where, for which BFR-ids."""

    __slots__ = ("line", "a", "b", "ids", "ttl", "is_tunnelled")

    def __init__(self, line, a, b, ids, ttl, is_tunnelled):
        self.line, self.a, self.b, self.ids, self.ttl, self.is_tunnelled = line, a, b, ids, ttl, is_tunnelled


class Tree:
    """An injection: its ingress router, its copies, its lines of the report, and the interfaces down at its last event."""

    def __init__(self, number, line, ingress, hops, told):
        self.number, self.ingress, self.hops, self.told = number, ingress, hops, told
        self.last_line = max([line, *(hop.line for hop in hops), *(it.line for it in told)])
        self.down = set()  # interfaces, as pairs of a router and its neighbor


def hop_of(item):
    header, tunnel = frames.data_of(item.record.octets)
    return Hop(item.record.second, item.a, item.b, item.ids, header.ttl, tunnel is not None)


def tree_by_schedule(domain, schedule, report, records, number):
    course = Course(domain, schedule, report, records)
    if number not in course.injected:
        raise Trouble(f"the replay has no injection {number}; it has {len(course.injected)}")
    hops = [hop_of(item) for step in course.steps for item in step.sent if item.injection == number]
    line, ingress, *_ = course.injected[number]
    found = Tree(number, line, ingress, hops, told_of(report, number))
    found.down.update(course.down_at_start)
    for step in course.steps[: found.last_line]:
        for a, b, is_up in step.ends:
            (found.down.discard if is_up else found.down.add)((a, b))
    return found


def told_of(report, number):
    return [told for told in report.told if told.injection == number]


class Root:
    """An injection that was found: its line and ingress router, its frames, and the numbers that the report has for it."""

    def __init__(self, line, ingress):
        self.line, self.ingress, self.items, self.numbers = line, ingress, [], set()


class Joined:
    """The data frames of a capture, joined to the injections that they come from."""

    def __init__(self, domain, report, records):
        self.domain, self.report = domain, report
        self.waiting = {}  # by router: copies that it hasn't forwarded yet, as [item, header, BFR-ids left, root]
        self.roots = {}  # by line
        self.told = list(report.told)
        for record in records:
            found = frames.data_of(record.octets)
            if found:
                self.tell_until(record.second)
                self.join(record, *found)
        self.tell_until(None)

    def join(self, record, header, tunnel):
        ends = self.domain.sender_of(record.octets)
        item = None if ends is None else data_item(self.domain, record, *ends, header, tunnel)
        if item is None:
            raise Trouble(
                f"frame {record.number} of the capture isn't one of this domain; where labels move in the replay, give --schedule"
            )
        root = self.take_from_parent(item, header) or self.root(record.second, item.a)
        root.items.append(item)
        self.waiting.setdefault(item.b, []).append([item, header, set(item.ids), root])

    def root(self, line, ingress):
        return self.roots.setdefault(line, Root(line, ingress))

    def take_from_parent(self, item, header):
        """The root of the frame that this one is a copy of; None where an injection made it."""
        for entry in self.waiting.get(item.a, []):
            parent, above, left, root = entry
            if set(item.ids) <= left and self.is_child(item, header, parent, above):
                left -= set(item.ids)
                if not left:
                    self.waiting[item.a].remove(entry)
                return root
        return None

    def is_child(self, item, header, parent, above):
        same = (header.entropy, header.bfir, header.payload) == (above.entropy, above.bfir, above.payload)
        if not same or item.subdomain != parent.subdomain:
            return False
        # A packet in transit in its tunnel keeps its own TTL.
        passes = parent.is_tunnelled and parent.target != item.a
        return header.ttl == above.ttl - (0 if passes else 1)

    def tell_until(self, line):
        """Applies the report's lines before a line of the schedule."""
        while self.told and (line is None or self.told[0].line < line):
            told = self.told.pop(0)
            if told.injection is not None and told.ids:
                self.tell(told)

    def tell(self, told):
        """A delivery or drop ends BFR-ids of a copy at its router; where there is no copy, the packet has just entered."""
        place, ids = self.domain.place[told.router], set(told.ids)
        fitting = [entry for entry in self.waiting.get(place, []) if ids <= entry[2] and self.may_be(told, *entry)]
        known = [entry for entry in fitting if told.injection in entry[3].numbers] or fitting
        # A line that injects does nothing else, so what it reports concerns its own packet.
        if told.line in self.roots or not known:
            self.root(told.line, place).numbers.add(told.injection)
            return
        known[0][2].difference_update(ids)
        known[0][3].numbers.add(told.injection)

    def may_be(self, told, item, header, left, root):
        """Whether a line of the report may concern this copy."""
        payload = header.payload.hex() or "-"
        return root.numbers <= {told.injection} and (not told.is_got or told.payload == payload)

    def tree(self, number):
        """The tree of an injection, by its number in the order of their lines."""
        in_order = [self.roots[line] for line in sorted(self.roots)]
        if not 1 <= number <= len(in_order):
            raise Trouble(f"the replay has no injection {number}; it has {len(in_order)}")
        for place, root in enumerate(in_order, 1):
            if root.numbers - {place}:
                raise Trouble("two injections look alike in the capture, so their copies can't be distinguished: add --schedule")
        root = in_order[number - 1]
        return Tree(number, root.line, root.ingress, [hop_of(item) for item in root.items], told_of(self.report, number))


def tree_by_frames(domain, report, records, number):
    found = Joined(domain, report, records).tree(number)
    found.down = unlisted_ends(domain, records, found.last_line) | ends_of_drops(domain, found)
    return found


def unlisted_ends(domain, records, last_line):
    """The interfaces that are missing from their routers' newest LSPs, of those that were sent up to a line."""
    newest = {}
    for record in records:
        octets = record.octets
        if record.second > last_line:
            break
        if frames.is_isis(octets) and octets[21] & 31 in frames.LSPS and octets[29:35] in domain.by_system:
            identifier, sequence = octets[29:37], frames.number(octets, 37, 4)
            if identifier not in newest or sequence > newest[identifier][0]:
                newest[identifier] = sequence, octets
    found = set()
    for identifier, (_, octets) in newest.items():
        place, listed = domain.by_system[identifier[:6]], frames.neighbors(octets)
        # An expired LSP lists nothing, whatever the links are.
        if frames.number(octets, 27, 2):
            found |= {(place, end["peer_at"]) for end in domain.ends(place) if end["peer"] not in listed}
    return found


def ends_of_drops(domain, tree):
    """The interfaces at which copies of this packet arrived while they were down, by the report."""
    found = set()
    for told in tree.told:
        if told.cause == "link":
            b = domain.place[told.router]
            found |= {(b, hop.a) for hop in tree.hops if hop.b == b and set(hop.ids) == set(told.ids)}
    return found
