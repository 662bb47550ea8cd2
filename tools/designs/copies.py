"""The copies of packets in a capture, and what is counted of them: no packet is forwarded here.

The payload of a packet that the tool injects names its flow, so each frame is known to be of one. Each BFR-id of a packet is at any
moment in one copy, so the copies that have a BFR-id are the links of its path.
"""
import collections
import dataclasses
import struct

from common import frames

RECORD = struct.Struct("<IIII")
NO_TUNNEL = 256  # in place of an outer TTL
FIRST_OUTER = 255  # the TTL of a tunnel's first frame


@dataclasses.dataclass(frozen=True)
class Copy:
    """A copy of a packet on a link, for some BFR-ids of one set."""

    a: int
    b: int
    flow: int
    ids: tuple
    set_id: int
    ttl: int
    outer: int  # TTL of the tunnel
    source: bytes  # of the tunnel; empty without one
    is_at_end: bool  # whether the link leads to a BFR that forwards by the BIER header


def payload(flow, is_counted):
    return f"{flow:04x}{int(is_counted):02x}"


class Reader:
    """Reads frames as copies, each different frame once."""

    def __init__(self, domain):
        self.domain, self.known = domain, {}

    def read(self, octets):
        """The copy in a frame; None in an IS-IS frame and in a packet that isn't counted."""
        if octets not in self.known:
            self.known[octets] = self.copy_of(octets)
        return self.known[octets]

    def copy_of(self, octets):
        found = frames.data_of(octets)
        if found is None or found[0].payload[2:] != b"\x01":
            return None
        header, tunnel = found
        a, b = self.domain.sender_of(octets)
        target = self.domain.by_prefix[tunnel.destination] if tunnel else b
        _, bits, set_id = self.domain.triple(target, header.is_mpls, header.bift)
        ids = tuple(set_id * bits + position for position in frames.positions(header.bitstring))
        outer, source = (tunnel.ttl, tunnel.source) if tunnel else (NO_TUNNEL, b"")
        flow = int.from_bytes(header.payload[:2], "big")
        return Copy(a, b, flow, ids, set_id, header.ttl, outer, source, target == b)


def copies_in(octets, spans, reader):
    """The copies that lines of the schedule sent, by the span of lines, in the order of the capture. Spans are pairs of a first
    and a last line, and ascend."""
    found, at, end = [[] for _ in spans], 24, len(octets)
    for here, (first, last) in zip(found, spans):
        while at < end:
            line, _, length, _ = RECORD.unpack_from(octets, at)
            if line > last:
                break
            at += 16 + length
            if line >= first:
                copy = reader.read(octets[at - length : at])
                if copy is not None:
                    here.append(copy)
    return found


def along(copies):
    """The copies of one packet, those of each BFR-id in the order of its path."""
    return sorted(copies, key=lambda copy: (-copy.ttl, -copy.outer))


def ways_by_id(copies):
    """The directions of links on the path of each BFR-id, from pairs of BFR-ids and direction along the paths."""
    found = {}
    for ids, way in copies:
        for bfr_id in ids:
            found.setdefault(bfr_id, []).append(way)
    return found


def in_sending_order(copies):
    """The copies of one packet, those that are more links from the ingress later, and on each link in the order of sending."""
    paths = collections.defaultdict(list)
    for number, copy in enumerate(copies):
        for bfr_id in copy.ids:
            paths[bfr_id].append(number)
    for path in paths.values():
        path.sort(key=lambda number: (-copies[number].ttl, -copies[number].outer))
    order, rank = [], {}
    level = sorted({path[0] for path in paths.values()})
    while level:
        for number in level:
            rank[number] = len(order)
            order.append(copies[number])
        above, after = set(level), {}
        for path in paths.values():
            for parent, child in zip(path, path[1:]):
                if parent in above and child not in rank:
                    after[child] = rank[parent]
        level = sorted(after, key=lambda number: (after[number], number))
    return order


class Tree:
    """What is counted of the copies of one packet."""

    def __init__(self, paths, links, repeated, gains):
        self.paths = paths  # by BFR-id: links from the ingress, hops of the BIER header, milliseconds
        self.links = links  # by direction of a link: copies, and BFR-ids in them, which are the copies of unicast replication
        self.repeated = repeated  # by direction of a link: copies beyond one for each set
        self.gains = gains  # by non-BFR: how many copies on links would be saved if it were a BFR

    def as_lists(self):
        return [[[key, value] for key, value in part.items()] for part in (self.paths, self.links, self.repeated, self.gains)]

    @staticmethod
    def of_lists(lists):
        paths, links, repeated, gains = lists
        ways = lambda part: {tuple(key): value for key, value in part}
        return Tree(dict(paths), ways(links), ways(repeated), dict(gains))


def tree_of(copies, ttl, delays):
    """The counts of one packet's copies. `delays` are of links, and empty without times."""
    paths, links, sets = {}, {}, collections.Counter()
    for copy in copies:
        way = copy.a, copy.b
        for bfr_id in copy.ids:
            many, lowest, delay = paths.get(bfr_id, (0, ttl, 0))
            paths[bfr_id] = many + 1, min(lowest, copy.ttl), delay + delays.get(way, 0)
        many, unicast = links.get(way, (0, 0))
        links[way] = many + 1, unicast + len(copy.ids)
        sets[way, copy.set_id] += 1
    repeated = collections.Counter()
    for (way, _), many in sets.items():
        if many > 1:
            repeated[way] += many - 1
    hops = {bfr_id: (many, ttl - lowest + 1, delay) for bfr_id, (many, lowest, delay) in sorted(paths.items())}
    return Tree(hops, links, repeated, gains_of(copies))


def gains_of(copies):
    """What would be saved if a non-BFR were a BFR: tunnels of one router and one set that arrive at it together would be one."""
    together = collections.Counter(
        (copy.b, copy.source, copy.set_id, copy.a, copy.outer) for copy in copies if copy.source and not copy.is_at_end
    )
    gains = collections.Counter()
    for (router, _, _, _, outer), many in together.items():
        if many > 1:
            gains[router] += (many - 1) * (FIRST_OUTER - outer + 1)
    return gains
