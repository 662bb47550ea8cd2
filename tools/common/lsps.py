"""LSPs as a capture or a router shows them, and the network that they describe."""
from collections import Counter

from .network import Link, Network, Router, Sub, prefix_number
from .trouble import Trouble

UNREACHABLE = 16777215  # a metric that takes a link out of SPF (RFC 5305, 3)


class Lsp:
    """One LSP. Systems are the source's texts of a system ID; `infos` are BIER Infos: prefix, sub-domain, BFR-id, ranges."""

    def __init__(self, level, system, pseudonode, fragment, sequence=0, life=1):
        self.level, self.system, self.pseudonode, self.fragment = level, system, pseudonode, fragment
        self.sequence, self.life, self.overload = sequence, life, False
        self.areas, self.name, self.router_id = [], None, None
        self.reaches, self.prefixes, self.infos = [], [], []

    def key(self):
        return self.system, self.pseudonode, self.fragment

    def age(self):
        """The order of two LSPs of one ID: the later one has the higher sequence number, or is a purge of the same."""
        return self.sequence, self.life == 0

    def text(self):
        return f"{self.system}.{self.pseudonode:02x}-{self.fragment:02x}"


def newest(lsps):
    """Of each LSP ID the latest LSP, where it is live."""
    found = {}
    for lsp in lsps:
        held = found.get(lsp.key())
        if held is None or held.age() < lsp.age():
            found[lsp.key()] = lsp
    return [found[key] for key in sorted(found) if found[key].life > 0]


def of_one_level(lsps, wanted, network):
    levels = sorted({lsp.level for lsp in lsps})
    network.level = wanted or (levels[-1] if levels else None)
    if wanted is None and len(levels) > 1:
        network.note("LSPs of level 1: level 2 is imported (--level 1 has the other)")
    return [lsp for lsp in lsps if lsp.level == network.level]


def network_of(lsps, options, what):
    """The network of LSPs in which systems have system IDs."""
    network = Network()
    live = newest(of_one_level(lsps, options.level, network))
    systems = {}
    for lsp in live:
        if not lsp.pseudonode:
            systems.setdefault(lsp.system, []).append(lsp)
    for system in [system for system, own in systems.items() if own[0].fragment]:
        network.note(f"system {system}: the LSP {system}.00-00 isn't there, not imported")
        del systems[system]
    if not systems:
        raise Trouble(f"{what}: no LSPs of routers" + (f" of level {options.level}" if options.level else ""))
    routers = {system: router_of(system, own, network) for system, own in systems.items()}
    for system, own in systems.items():
        routers[system].adjacencies = sum(len(lsp.reaches) for lsp in own)
        routers[system].prefixes = [it for lsp in own for it in lsp.prefixes if prefix_number(it[0])]
    network.routers = list(routers.values())
    choose_area(live, options, network)
    add_links(systems, routers, live, network, options)
    network.has_bier = any(router.subs for router in network.routers)
    return network, routers


def choose_area(live, options, network):
    areas = Counter(area for lsp in live if not lsp.pseudonode for area in lsp.areas)
    network.area = options.area or (areas.most_common(1)[0][0] if areas else None)
    others = sorted(area for area in areas if area != network.area)
    if others:
        network.note(f"areas {', '.join(others)}: a domain file has one, {network.area}")


def router_of(system, own, network):
    name = next((lsp.name for lsp in own if lsp.name), None)
    router = Router(name, system, None, own[0].overload)
    infos = [info for lsp in own for info in lsp.infos if prefix_number(info[0])]
    hosts = [(metric, prefix) for lsp in own for prefix, bits, metric in lsp.prefixes if bits == 32 and prefix_number(prefix)]
    router_id = next((lsp.router_id for lsp in own if lsp.router_id), None)
    choices = [info[0] for info in infos] or [prefix for _, prefix in hosts if prefix == router_id]
    choices = choices or [prefix for _, prefix in sorted(hosts)]
    router.prefix = choices[0] if choices else router_id
    shown = name or system
    for prefix in sorted({prefix for _, prefix in hosts} - {router.prefix}):
        network.note(f"router {shown}: prefix {prefix}/32 beside {router.prefix}, not imported")
    for prefix, subdomain, bfr_id, ranges in infos:
        if prefix != router.prefix:
            network.note(f"router {shown}: BIER Info at {prefix}, a second BFR-prefix, not imported")
        elif subdomain in router.subs:
            network.note(f"router {shown}: a second BIER Info of sub-domain {subdomain}, not imported")
        else:
            router.subs[subdomain] = Sub(bfr_id, ranges)
    return router


# ---- links


def add_links(systems, routers, live, network, options):
    """The links that both ends advertise."""
    ends = {}  # the metrics from one system to another, ascending
    lans = {}  # the metric of each member to a pseudonode
    for system, own in systems.items():
        for lsp in own:
            for neighbor, pseudonode, metric in lsp.reaches:
                if pseudonode:
                    lans.setdefault((neighbor, pseudonode), {}).setdefault(system, metric)
                else:
                    ends.setdefault((system, neighbor), []).append(metric)
    seen = set()
    for a, b in ends:
        if (b, a) not in seen:
            seen.add((a, b))
            join(a, b, ends, routers, network)
    members = {}
    for lsp in live:
        if lsp.pseudonode:
            members.setdefault((lsp.system, lsp.pseudonode), []).extend(reach[0] for reach in lsp.reaches)
    for lan, metrics in lans.items():
        add_lan(lan, members.get(lan, []), metrics, routers, network, options.mesh)


def label(system, routers):
    return routers[system].label or system if system in routers else system


def join(a, b, ends, routers, network):
    here, there = sorted(ends[a, b]), sorted(ends.get((b, a), []))
    what = f"link {label(a, routers)} to {label(b, routers)}"
    if b not in routers:
        network.note(f"{what}: no LSP of {b}, not imported")
        return
    if not there:
        network.note(f"{what}: only {label(a, routers)} advertises it, not imported")
    elif len(here) != len(there):
        more, fewer = (a, b) if len(here) > len(there) else (b, a)
        extra = f"{abs(len(here) - len(there))} more than {label(fewer, routers)}"
        network.note(f"{what}: {label(more, routers)} advertises {extra}, not imported")
    for metric_ab, metric_ba in zip(here, there):
        if UNREACHABLE in (metric_ab, metric_ba):
            network.note(f"{what}: metric {UNREACHABLE}, which takes no traffic, not imported")
        else:
            network.add_link(Link(routers[a], routers[b], metric_ab, metric_ba))


def add_lan(lan, listed, metrics, routers, network, is_mesh):
    """A LAN of two routers is a link; a larger one is left out, or becomes a link between each two."""
    name = f"LAN {label(lan[0], routers)}.{lan[1]:02x}"
    both = [system for system in routers if system in listed and metrics.get(system, UNREACHABLE) < UNREACHABLE]
    names = ", ".join(label(system, routers) for system in both)
    if len(both) < 2:
        network.note(f"{name}: its pseudonode LSP joins no two routers, not imported")
        return
    if len(both) > 2 and not is_mesh:
        network.note(f"{name} of {names}: not imported (--mesh imports it as links between each two)")
        return
    network.note(f"{name} of {names}: imported as " + ("a link" if len(both) == 2 else "links between each two"))
    for place, a in enumerate(both):
        for b in both[place + 1 :]:
            link = Link(routers[a], routers[b], metrics[a], metrics[b])
            link.lan = lan
            network.add_link(link)
