"""Domains like a national network, of any size, for tests: tools/tests/national.py N > domain.toml

A core of routers in a ring with chords, and access rings, each joined to two core routers. One router in seven of the access rings
is a non-BFR; of the others every second one is a receiver.
"""
import sys

IN_A_RING = 6


def cores(count):
    return max(4, count // 10)


def names(count):
    core = cores(count)
    found = [f"core-{place + 1}" for place in range(core)]
    for place in range(count - core):
        found.append(f"ring{place // IN_A_RING + 1}-{place % IN_A_RING + 1}")
    return found


def links(count):
    """Pairs of indexes, each with its metric."""
    core, found = cores(count), []
    for place in range(core):
        found.append((place, (place + 1) % core, 10))
        if place % 3 == 0 and core > 6 and place < core // 2:
            found.append((place, place + core // 2, 25))
    for first in range(core, count, IN_A_RING):
        ring = (first - core) // IN_A_RING
        members = list(range(first, min(first + IN_A_RING, count)))
        chain = [ring % core, *members, (ring + 1) % core]
        found += [(a, b, 5) for a, b in zip(chain, chain[1:])]
    return found


def is_plain(place, core):
    return place >= core and (place - core) % 7 == 6


def router(place, name):
    return f'[[router]]\nname = "{name}"\nsystem = "0000.0000.{place + 1:04x}"\nprefix = "10.{place // 250}.{place % 250}.1"\n'


def membership(place, name, bfr_id):
    label = 1000 + 10 * place
    return f'[[bier]]\nrouter = "{name}"\nsd = 0\nid = {bfr_id}\n' + "".join(
        f'[[labels]]\nrouter = "{name}"\nsd = 0\nbsl = {bits}\nmax_si = {256 // bits - 1}\nlabel = {label + step}\n'
        for bits, step in ((64, 0), (256, 4))
    )


def national(count):
    """A domain file."""
    core, every = cores(count), names(count)
    parts = ['[[subdomain]]\nsd = 0\nkind = "mpls"\n', *(router(place, name) for place, name in enumerate(every))]
    for place, name in enumerate(every):
        if not is_plain(place, core):
            is_receiver = place == 0 or place >= core and place % 2 == 0
            parts.append(membership(place, name, place + 1 if is_receiver else 0))
    for a, b, metric in links(count):
        parts.append(f'[[link]]\na = "{every[a]}"\nb = "{every[b]}"\nmetric_ab = {metric}\nmetric_ba = {metric}\n')
    return "".join(parts)


def receivers(count):
    core = cores(count)
    return [place + 1 for place in range(count) if not is_plain(place, core) and (place == 0 or place >= core and place % 2 == 0)]


if __name__ == "__main__":
    print(national(int(sys.argv[1])), end="")
