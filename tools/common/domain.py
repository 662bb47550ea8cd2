"""Domain files, read by the rules of the user guide, through the independent implementation in tools/independent."""
from . import explain, places  # the latter sets where the independent program is found
from .trouble import Trouble, read_octets

import model as independent


class Router:
    """A router as the tools show it, over the independent program's configuration of it."""

    def __init__(self, place, conf):
        self.place, self.conf = place, conf
        self.name, self.overload = conf["name"], conf["overload"]
        self.system, self.prefix = conf["system"], conf["prefix"]
        self.subs = conf["subs"]

    @property
    def plain(self):
        """Whether it is a non-BFR."""
        return not self.subs

    def ids(self):
        """Its BFR-ids, as pairs of sub-domain and BFR-id; with 0 it only forwards packets."""
        return [(sub["sd"], sub["id"]) for sub in self.subs]

    def id_in(self, subdomain):
        return next((sub["id"] for sub in self.subs if sub["sd"] == subdomain), 0)

    def ranges(self):
        """Its label ranges: sub-domain, BitString length, highest set identifier, label of set 0."""
        return [(sub["sd"], *entry) for sub in self.subs for entry in sub["ranges"]]

    def known_ranges(self):
        """Besides these those of the sub-domains that it left, and the ones that it had before its labels were moved."""
        left = [(sub["sd"], *entry) for sub in self.conf.get("away", ()) for entry in sub["ranges"]]
        return [*self.ranges(), *left, *((sd, *entry) for sd, entry in self.conf.get("past", ()))]


class Domain:
    def __init__(self, confs):
        self.confs = confs
        self.routers = [Router(place, conf) for place, conf in enumerate(confs)]
        self.place = {router.name: router.place for router in self.routers}
        self.by_prefix = {router.prefix: router.place for router in self.routers}
        self.by_system = {router.system: router.place for router in self.routers}
        self.by_addresses = {}  # a data frame's first 12 octets: sender and receiver
        for place, conf in enumerate(confs):
            for end in conf["ends"]:
                self.by_addresses.setdefault(end["peer_mac"] + end["own_mac"], (place, end["peer_at"]))
        self.kinds = dict(confs[0]["kinds"])
        self.table = confs[0]["table"]

    def name(self, place):
        return self.routers[place].name

    def ends(self, place):
        return self.confs[place]["ends"]

    def links(self):
        """Each link once: the indexes of its two routers, and the metric from each to the other."""
        for a, conf in enumerate(self.confs):
            for end in conf["ends"]:
                b = end["peer_at"]
                if a < b:
                    back = next(other["metric"] for other in self.ends(b) if other["peer_at"] == a)
                    yield a, b, end["metric"], back

    def peer_of(self, place, octets):
        """The router at which a data frame of this router arrives, by the frame's destination."""
        return next((end["peer_at"] for end in self.ends(place) if end["peer_mac"] == octets[:6]), None)

    def sender_of(self, octets):
        """The two routers of a data frame's link, by its addresses."""
        return self.by_addresses.get(octets[:12])

    def owners(self, subdomain, bfr_id):
        return [router for router in self.routers if bfr_id and (subdomain, bfr_id) in router.ids()]

    def triple(self, place, is_mpls, bift):
        """What a BIFT-id selects at a router: sub-domain, BitString length, set identifier; None where it selects nothing."""
        if not is_mpls:
            return next((triple for triple, number in self.table if number == bift), None)
        for subdomain, bits, highest, label in self.routers[place].known_ranges():
            if label <= bift <= label + highest:
                return subdomain, bits, bift - label
        return None


def is_topology(octets):
    """Whether a file is the report of `topo`."""
    return octets.startswith((b"node ", b"done records "))


def topology(path, octets):
    """The network in a report of `topo`: its routers have their system IDs as names, and no label ranges."""
    nodes, kinds, edges = {}, {}, []
    for line in octets.decode("utf-8", "replace").splitlines():
        word, *rest = line.split()
        if word == "node":
            system, state = rest
            conf = {"name": system, "system": bytes.fromhex(system.replace(".", "")), "prefix": None, "overload": state == "overload"}
            nodes[system] = {**conf, "subs": [], "ends": []}
        elif word == "edge":
            edges.append((rest[0], rest[1], int(rest[2])))
        elif word == "bier":
            system, subdomain, bfr_id, prefix = rest
            kinds[int(subdomain)] = "mpls"
            nodes[system]["prefix"] = bytes(map(int, prefix.split(".")))
            nodes[system]["subs"].append({"sd": int(subdomain), "id": int(bfr_id), "ranges": []})
    if not nodes:
        raise Trouble(f"{path}: the topology has no nodes")
    confs, place = list(nodes.values()), {name: at for at, name in enumerate(nodes)}
    for a, b, metric in edges:
        if a != b:
            nodes[a]["ends"].append({"peer_at": place[b], "metric": metric, "peer_mac": b"", "own_mac": b""})
    for conf in confs:
        conf["kinds"], conf["table"] = sorted(kinds.items()), []
    return Domain(confs)


def read_network(path):
    """The network in a domain file, or in the report of `topo`."""
    octets = read_octets(path)
    return topology(path, octets) if is_topology(octets) else read_domain(path)


def read_domain(path):
    try:
        return Domain(independent.read_domain(read_octets(path)))
    except independent.ConfFault as fault:
        raise Trouble(f"not a domain file: {explain.conf(path, str(fault))}")
