"""What a design is, once it is read: streams over a domain, failures, times, and promises."""
import dataclasses
import math

PROMISES = ("covered", "disjoint", "lost_unseen", "lost_disagreeing", "outage_ms", "delay_ms", "hops", "spare_ttl", "load_mbit")
OF_LINKS = ("load_mbit",)  # which concern all streams together


@dataclasses.dataclass(frozen=True)
class Stream:
    """Packets from an ingress to receivers; a redundant pair has two ingresses, which send the same packets."""

    name: str
    ingresses: tuple  # indexes of routers
    sd: int
    bsl: int
    receivers: dict  # the index of each receiver, by its BFR-id
    ttl: int
    entropies: tuple  # for each ingress the entropies that its packets take in turn
    mbit: float | None
    packets_per_second: float | None
    unseen_packets: int  # that enter before the routers at a failure notice
    promises: dict

    @property
    def is_pair(self):
        return len(self.ingresses) == 2


@dataclasses.dataclass(frozen=True)
class Flow:
    """The packets of a stream with one ingress and one entropy. All of them take the same paths while no router changes."""

    stream: int
    leg: int
    ingress: int
    entropy: int


@dataclasses.dataclass(frozen=True)
class Case:
    """What fails together: links as pairs of indexes, routers, and the kind: none, link, router, pair or group."""

    name: str
    kind: str
    links: tuple
    routers: tuple

    def cut(self):
        """Both directions of each link that fails."""
        return {way for a, b in self.links for way in ((a, b), (b, a))}


@dataclasses.dataclass(frozen=True)
class Times:
    """Milliseconds, where the design has them: until the routers at a failure forward over other paths, and of a round of
    flooding, in which an LSP crosses one link."""

    unseen_ms: float | None
    round_ms: float | None
    delays: dict  # of each direction of a link, in milliseconds

    def packets_in_a_round(self, stream):
        if self.round_ms is None:
            return 1
        return max(1, math.ceil(stream.packets_per_second * self.round_ms / 1000))


@dataclasses.dataclass(frozen=True)
class Design:
    path: str
    domain_path: str
    domain_text: str
    domain: object  # common.domain.Domain
    streams: tuple
    cases: tuple
    times: Times
    promises: dict  # of links: those of OF_LINKS

    def flows(self):
        """All flows, in the order of the streams, their ingresses and their entropies."""
        return [
            Flow(number, leg, ingress, entropy)
            for number, stream in enumerate(self.streams)
            for leg, ingress in enumerate(stream.ingresses)
            for entropy in stream.entropies[leg]
        ]

    def ids(self, flow, case):
        """The BFR-ids that a flow's packets name in a case; none where its ingress failed. A router that failed gets no packets."""
        if flow.ingress in case.routers:
            return []
        receivers = self.streams[flow.stream].receivers
        return [bfr_id for bfr_id, place in sorted(receivers.items()) if place not in case.routers]

    def way_name(self, a, b):
        return f"{self.domain.name(a)} to {self.domain.name(b)}"
