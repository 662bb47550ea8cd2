"""Which BitString lengths the routers of a sub-domain support."""
from . import frames


def carries(it, router, subdomain, bits, bfr_id):
    """Whether a router has a BIFT-id for the set of a BFR-id, at a BitString length."""
    set_id = (bfr_id - 1) // bits
    if it.kinds[subdomain] == "configured":
        return any(triple == (subdomain, bits, set_id) for triple, _ in it.table)
    return any(sd == subdomain and own == bits and set_id <= highest for sd, own, highest, _ in router.ranges())


def supports(it, router, subdomain, bits):
    """Whether a packet may enter at a router with a BitString length."""
    if it.kinds[subdomain] == "configured":
        return any(triple[:2] == (subdomain, bits) for triple, _ in it.table)
    return any((sd, own) == (subdomain, bits) for sd, own, _, _ in router.ranges())


def shortest(it, subdomain, routers, ids, lengths=tuple(sorted(frames.LENGTHS.values()))):
    """The shortest of some lengths that each of these routers supports for all these BFR-ids; None where there is none."""
    for bits in lengths:
        if all(carries(it, router, subdomain, bits, bfr_id) for router in routers for bfr_id in ids):
            return bits
    return None
