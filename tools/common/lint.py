"""What is valid in a domain file, but makes the routers drop packets with the cause `none`."""
from .domain import read_domain
from .explain import Conf
from .layout import hops_from

MOST_NAMES = 6  # in one warning


def warnings(path):
    """The warnings about a domain file, each with its file, and the line where one entry is the reason."""
    domain = read_domain(path)
    conf = Conf(path)
    found = [*without_labels(domain, conf), *beyond_range(domain, conf), *twice(domain, conf)]
    return [*found, *without_links(domain, conf), *apart(domain, path), *without_room(domain, path), *without_rows(domain, path)]


def listed(names):
    return ", ".join(names[:MOST_NAMES]) + (f" and {len(names) - MOST_NAMES} more" if len(names) > MOST_NAMES else "")


def entry_line(conf, array, **wanted):
    """The file and line of the entry with those values."""
    for place, entry in enumerate(conf.entries(array)):
        if all(entry.get(key) == value for key, value in wanted.items()):
            return conf.at(f"{array}[{place}]")
    return conf.path


def mpls(domain):
    return [subdomain for subdomain, kind in domain.kinds.items() if kind == "mpls"]


def without_labels(domain, conf):
    for router in domain.routers:
        for sub in router.subs:
            if domain.kinds[sub["sd"]] == "mpls" and not sub["ranges"]:
                where = entry_line(conf, "bier", router=router.name, sd=sub["sd"])
                yield f"{where}: {router.name} has no [[labels]] in sub-domain {sub['sd']}, so no packet can be sent to it"


def beyond_range(domain, conf):
    for router in domain.routers:
        for subdomain, bits, highest, _ in router.ranges():
            bfr_id = router.id_in(subdomain)
            if bfr_id and (bfr_id - 1) // bits > highest:
                where = entry_line(conf, "labels", router=router.name, sd=subdomain, bsl=bits)
                own = f"BFR-id {bfr_id} is in set {(bfr_id - 1) // bits}"
                yield f"{where}: with {bits} bits {router.name} has the sets up to {highest}, and its own {own}"


def twice(domain, conf):
    for subdomain in domain.kinds:
        owners = {}
        for router in domain.routers:
            if router.id_in(subdomain):
                owners.setdefault(router.id_in(subdomain), []).append(router.name)
        for bfr_id, names in owners.items():
            if len(names) > 1:
                where = entry_line(conf, "bier", router=names[1], sd=subdomain)
                owners_of = f"BFR-id {bfr_id} of sub-domain {subdomain} is at {listed(names)}"
                yield f"{where}: {owners_of}, so none of them gets packets for it"


def without_links(domain, conf):
    if len(domain.routers) > 1:
        for router in domain.routers:
            if not domain.ends(router.place):
                yield f"{entry_line(conf, 'router', name=router.name)}: {router.name} has no link"


def apart(domain, path):
    neighbors = [[end["peer_at"] for end in domain.ends(a)] for a in range(len(domain.routers))]
    left, parts = set(range(len(neighbors))), []
    while left:
        part = set(hops_from(min(left), neighbors))
        parts.append(part)
        left -= part
    parts = sorted((part for part in parts if len(part) > 1), key=len, reverse=True)
    for part in parts[1:]:
        names = listed([domain.name(place) for place in sorted(part)])
        yield f"{path}: no link leads from {names} to the other {len(domain.routers) - len(part)} routers"


def needed(domain, subdomain, bits):
    """The highest set of a BFR-id of the sub-domain, and the BFR-id."""
    highest = max((router.id_in(subdomain) for router in domain.routers), default=0)
    return (highest - 1) // bits, highest


def without_room(domain, path):
    """Routers whose range of a length has no BIFT-id for the sets of others, so no path leads through them to these."""
    for subdomain in mpls(domain):
        for bits in sorted({own for router in domain.routers for sd, own, _, _ in router.ranges() if sd == subdomain}):
            most, bfr_id = needed(domain, subdomain, bits)
            highest = {
                router.name: top for router in domain.routers for sd, own, top, _ in router.ranges() if (sd, own) == (subdomain, bits)
            }
            short = [name for name, top in highest.items() if top < most]
            if short:
                need = f"with {bits} bits BFR-id {bfr_id} is in set {most}"
                verb = "has" if len(short) == 1 else "have"
                yield f"{path}: sub-domain {subdomain}: {need}, for which {listed(short)} {verb} no label"


def without_rows(domain, path):
    """Sets of BFR-ids that are missing from the [[row]] entries of a sub-domain, at a length that these have."""
    for subdomain in (it for it, kind in domain.kinds.items() if kind == "configured"):
        rows = {triple[1:] for triple, _ in domain.table if triple[0] == subdomain}
        ids = sorted(router.id_in(subdomain) for router in domain.routers if router.id_in(subdomain))
        if ids and not rows:
            yield f"{path}: sub-domain {subdomain} has no [[row]], so nothing can be sent in it"
        for bits in sorted({own for own, _ in rows}):
            lacking = sorted({(bfr_id - 1) // bits for bfr_id in ids} - {si for own, si in rows if own == bits})
            if lacking:
                yield f"{path}: sub-domain {subdomain} has no [[row]] of {bits} bits for set {listed(list(map(str, lacking)))}"
