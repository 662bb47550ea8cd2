"""A network as tools/import reads it from any source, made to fit the rules of domain files, and written as one.

Values that a source lacks are assigned and marked in the file; what a domain file can't represent is left out, with a note each.
"""
import ipaddress
import re
import unicodedata

from .trouble import Trouble

NAME = re.compile(r"[A-Za-z][A-Za-z0-9_-]{0,31}\Z")
SYSTEM = re.compile(r"[0-9a-fA-F]{4}(\.[0-9a-fA-F]{4}){2}\Z")
MAC = re.compile(r"[0-9a-fA-F]{2}(:[0-9a-fA-F]{2}){5}\Z")
MOST_ROUTERS, MOST_LINKS_OF_A_ROUTER, MOST_SUBDOMAINS, MOST_OCTETS = 1000, 64, 8, 245
MOST_LINKS, MOST_MEMBERS, MOST_RANGES = 8000, 4000, 16000  # of a domain file
MOST_METRIC = 16777214
MOST_LABEL = 1048575
MARK = "  # assigned"
# Letters that Unicode doesn't decompose into one of ASCII and a mark.
LETTERS = str.maketrans(dict(zip("ŁłØøÆæĐđıß", ["L", "l", "O", "o", "AE", "ae", "D", "d", "i", "ss"])))


def prefix_number(text):
    """The number of an address that a router may have in a domain file; None for any other text."""
    try:
        number = int(ipaddress.IPv4Address(text))
    except ValueError:
        return None
    return number if 1 <= number >> 24 <= 223 else None


def prefix_text(number):
    return ".".join(map(str, number.to_bytes(4, "big")))


def system_text(number):
    digits = f"{number:012x}"
    return f"{digits[:4]}.{digits[4:8]}.{digits[8:]}"


class Sub:
    """A router's membership of a sub-domain: BFR-id, and label ranges as BSL, highest set identifier, label of set 0."""

    def __init__(self, bfr_id, ranges=()):
        self.bfr_id, self.ranges = bfr_id, list(ranges)


class Router:
    """A router. Keys that are None are assigned later, and are in `assigned` then."""

    def __init__(self, label, system=None, prefix=None, overload=False):
        self.label, self.name = label, None
        self.system, self.prefix, self.overload = system, prefix, overload
        self.subs, self.assigned = {}, set()
        self.adjacencies, self.prefixes = None, []  # how many its LSPs advertise; and prefixes, lengths, metrics
        self.where = ""  # its place in the source, for notes

    def shown(self):
        """The router in a note."""
        return self.label or self.system or "without a name"

    def noted(self):
        return f"{self.where}router {self.shown()}"

    def mark(self, key):
        return MARK if key in self.assigned else ""


class Link:
    def __init__(self, a, b, metric_ab, metric_ba, mac_a=None, mac_b=None):
        self.a, self.b, self.metric_ab, self.metric_ba, self.mac_a, self.mac_b = a, b, metric_ab, metric_ba, mac_a, mac_b
        self.is_assigned = False  # whether the metrics are
        self.lan = None  # the system and pseudonode of a LAN that it stands for
        self.where = ""  # its place in the source, for notes

    def ends(self):
        return {id(self.a), id(self.b)}

    def shown(self):
        """The link in a note."""
        return f"{self.where}link {self.a.shown()} to {self.b.shown()}"


class Network:
    """Routers in the order of the file, links, and `notes`: a line for each thing that isn't imported as the source has it."""

    def __init__(self, level=None, area=None):
        self.level, self.area = level, area
        self.routers, self.links = [], []
        self.kinds, self.rows = {}, []
        self.has_bier = False  # whether the source has which routers are BFRs
        self.notes, self.head = [], []
        self.pairs = {}

    def note(self, text):
        self.notes.append(re.sub(r"[\x00-\x1f\x7f]", " ", text))

    def add_link(self, link):
        """Adds a link; of several between two routers the one of the least metric stays."""
        what = link.shown()
        if link.a is link.b:
            self.note(f"{what}: joins a router to itself, not imported")
            return
        for metric in (link.metric_ab, link.metric_ba):
            if not 0 <= metric <= MOST_METRIC:
                self.note(f"{what}: metric {metric} is above {MOST_METRIC}, not imported")
                return
        if 0 in (link.metric_ab, link.metric_ba):
            self.note(f"{what}: metric 0 becomes 1")
            link.metric_ab, link.metric_ba = max(1, link.metric_ab), max(1, link.metric_ba)
        pair = frozenset(link.ends())
        held = self.pairs.get(pair)
        if held is None:
            self.pairs[pair] = link
            self.links.append(link)
            return
        if link.metric_ab + link.metric_ba < held.metric_ab + held.metric_ba:
            self.links[self.links.index(held)] = self.pairs[pair] = link
            link, held = held, link
        metrics = f"metrics {link.metric_ab} and {link.metric_ba}"
        self.note(f"{link.shown()}: another link between the two, with {metrics}, not imported")

    # ---- the rules of domain files

    def fit(self, options):
        self.keep_what_fits()
        self.assign_names()
        self.assign_systems()
        self.assign_prefixes(options.prefix_base)
        if self.has_bier:
            self.check_bier(options)
        else:
            self.assign_bier(options)
        self.leave_default_macs()

    def keep_what_fits(self):
        for router in self.routers[MOST_ROUTERS:]:
            self.note(f"{router.noted()}: a domain file has at most {MOST_ROUTERS} routers, not imported")
        del self.routers[MOST_ROUTERS:]
        kept, counts, links = {id(router) for router in self.routers}, {}, []
        for link in self.links:
            full = [end.shown() for end in (link.a, link.b) if counts.get(id(end), 0) == MOST_LINKS_OF_A_ROUTER]
            if not link.ends() <= kept:
                self.note(f"{link.shown()}: one of the two routers isn't imported")
            elif full:
                self.note(f"{link.shown()}: {full[0]} has {MOST_LINKS_OF_A_ROUTER} links already, not imported")
            elif len(links) == MOST_LINKS:
                self.note(f"{link.shown()}: a domain file has at most {MOST_LINKS} links, not imported")
            else:
                links.append(link)
                for end in link.ends():
                    counts[end] = counts.get(end, 0) + 1
        self.links = links
        for router in self.routers:
            if not counts.get(id(router)):
                self.note(f"{router.noted()}: has no link")
        # Only one link of a router may lead to a MAC address.
        seen = set()
        for link in links:
            for end, key in ((link.a, "mac_b"), (link.b, "mac_a")):
                mac = getattr(link, key)
                if mac and (id(end), mac.lower()) in seen:
                    self.note(f"{link.shown()}: {end.shown()} has another link to {mac}, address not imported")
                    setattr(link, key, None)
                elif mac:
                    seen.add((id(end), mac.lower()))

    def leave_default_macs(self):
        """An address that is the default needs no key."""
        places = {id(router): place for place, router in enumerate(self.routers)}
        for link in self.links:
            for here, there, key in ((link.a, link.b, "mac_a"), (link.b, link.a, "mac_b")):
                own, peer = places[id(here)], places[id(there)]
                if getattr(link, key) == f"02:00:{own >> 8:02x}:{own & 255:02x}:{peer >> 8:02x}:{peer & 255:02x}":
                    setattr(link, key, None)

    def assign_names(self):
        taken = set()
        for place, router in enumerate(self.routers, 1):
            name = fitting_name(router.label or "", place)
            base, number = name, 2
            while name in taken:
                name = f"{base[: 32 - len(str(number)) - 1]}-{number}"
                number += 1
            taken.add(name)
            router.name = name
            if router.label is None:
                router.assigned.add("name")
            elif name != router.label and "name" not in router.assigned:
                self.note(f"{router.noted()}: renamed to {name}")

    def assign_systems(self):
        taken = self.unique("system", lambda router: router.system and router.system.lower())
        number = 1
        for router in self.routers:
            if router.system is None:
                while system_text(number) in taken:
                    number += 1
                router.system = system_text(number)
                router.assigned.add("system")
                number += 1

    def assign_prefixes(self, base):
        taken = self.unique("prefix", lambda router: router.prefix)
        number = prefix_number(base)
        for router in self.routers:
            if router.prefix is None:
                while prefix_text(number) in taken or prefix_number(prefix_text(number)) is None:
                    number = (number + 1) % 2**32
                router.prefix = prefix_text(number)
                router.assigned.add("prefix")
                number += 1

    def unique(self, key, value_of):
        """The values that routers have; of several routers with one value the first has it."""
        taken = set()
        for router in self.routers:
            value = value_of(router)
            if value in taken:
                self.note(f"{router.noted()}: another router has {key} {value}, assigned anew")
                setattr(router, key, None)
            elif value is not None:
                taken.add(value)
        return taken

    # ---- BIER

    def assign_bier(self, options):
        """Makes all routers BFRs, with BFR-ids in the order of the file."""
        subdomain, bits = options.sub_domain, options.bsl
        highest = (len(self.routers) - 1) // bits
        last = options.label_base + len(self.routers) * (highest + 1) - 1
        if options.kind == "mpls" and last > MOST_LABEL:
            raise Trouble(f"--label-base {options.label_base}: the last label would be {last}, above {MOST_LABEL}")
        self.kinds[subdomain] = options.kind
        for place, router in enumerate(self.routers):
            ranges = [(bits, highest, options.label_base + place * (highest + 1))] if options.kind == "mpls" else []
            router.subs[subdomain] = Sub(place + 1, ranges)
            router.assigned |= {("id", subdomain), ("label", subdomain, bits)}
        self.head.append(f"The source has no BIER: BFR-ids count from 1 in sub-domain {subdomain}, with BSL {bits}.")
        if options.kind == "mpls":
            self.head.append(f"Labels are from {options.label_base} to {last}.")
        else:
            self.assign_rows(options)

    def assign_rows(self, options):
        """Rows for the sets of all BFR-ids of sub-domains that have no labels."""
        bift = 1
        for subdomain, kind in sorted(self.kinds.items()):
            if kind == "configured":
                most = max((router.subs[subdomain].bfr_id for router in self.routers if subdomain in router.subs), default=0)
                for set_id in range((max(most, 1) - 1) // options.bsl + 1):
                    self.rows.append((subdomain, options.bsl, set_id, bift))
                    bift += 1
        self.head.append(f"The source has no BIFT-ids of non-MPLS encapsulation: they count from 1, with BSL {options.bsl}.")

    def check_bier(self, options):
        subdomains = sorted({sd for router in self.routers for sd in router.subs})
        for subdomain in subdomains[MOST_SUBDOMAINS:]:
            self.note(f"sub-domain {subdomain}: a domain file has at most {MOST_SUBDOMAINS}, not imported")
        for router in self.routers:
            router.subs = {sd: sub for sd, sub in router.subs.items() if sd in subdomains[:MOST_SUBDOMAINS]}
        self.keep_members()
        room = MOST_RANGES
        for router in self.routers:
            room -= self.check_ranges(router, room)
        for subdomain in subdomains[:MOST_SUBDOMAINS]:
            has_labels = any(router.subs[subdomain].ranges for router in self.routers if subdomain in router.subs)
            self.kinds[subdomain] = "mpls" if has_labels else "configured"
        if "configured" in self.kinds.values():
            self.assign_rows(options)

    def keep_members(self):
        """Leaves out sub-domains of routers beyond those that a file may have."""
        count = 0
        for router in self.routers:
            for subdomain in list(router.subs):
                if count == MOST_MEMBERS:
                    del router.subs[subdomain]
                    self.note(f"router {router.name}: sub-domain {subdomain}: a domain file has at most {MOST_MEMBERS} entries bier, not imported")
                else:
                    count += 1

    def check_ranges(self, router, room):
        """Leaves out label ranges that the file can't have: of a length that was, above the last label, overlapping, too many. Returns
        how many are kept, at most `room`."""
        used, octets = [], 7 * len(router.subs)
        for subdomain, sub in router.subs.items():
            kept, lengths = [], set()
            for bits, highest, label in sub.ranges:
                last = label + highest
                why = (
                    "has a second range of that BSL" if bits in lengths
                    else "isn't within 16 to 1048575" if label < 16 or last > MOST_LABEL
                    else "overlaps another range" if any(label <= end and start <= last for start, end in used)
                    else "is more than an LSP has room for" if octets + 6 > MOST_OCTETS
                    else f"is beyond the {MOST_RANGES} of a domain file" if len(used) == room
                    else None
                )
                if why:
                    what = f"sub-domain {subdomain}, BSL {bits}, labels {label} to {last}"
                    self.note(f"router {router.name}: {what}: {why}, not imported")
                    continue
                lengths.add(bits)
                used.append((label, last))
                octets += 6
                kept.append((bits, highest, label))
            sub.ranges = kept
        return len(used)

    # ---- the file

    def text(self, source):
        parts = [self.opening(source)]
        parts += [f'[[subdomain]]\nsd = {sd}\nkind = "{kind}"\n' for sd, kind in sorted(self.kinds.items())]
        parts += [f"[[row]]\nsd = {sd}\nbsl = {bits}\nsi = {si}\nbift = {bift}{MARK}\n" for sd, bits, si, bift in self.rows]
        parts += [router_text(router) for router in self.routers]
        parts += [bier_text(router, sd, sub) for router in self.routers for sd, sub in router.subs.items()]
        for router in self.routers:
            for sd, sub in router.subs.items():
                parts += [labels_text(router, sd, entry) for entry in sub.ranges]
        parts += [link_text(link) for link in self.links]
        return "\n".join(parts)

    def opening(self, source):
        """The comments of the head, and the top keys that aren't the default."""
        lines = [f"# Imported from {source}.", *(f"# {line}" for line in self.head)]
        if any(router.assigned for router in self.routers) or self.rows or any(link.is_assigned for link in self.links):
            lines.append("# Values marked `assigned` are not from the source.")
        lines += [f"# Not as in the source: {note}" for note in self.notes]
        keys = [f"level = {self.level}"] if self.level not in (None, 2) else []
        keys += [f'area = "{self.area}"'] if self.area not in (None, "490001") else []
        return "\n".join(lines) + "\n" + ("\n" + "\n".join(keys) + "\n" if keys else "")


def fitting_name(label, place):
    """A name as near to a label as the rules of names allow."""
    if NAME.match(label):
        return label
    plain = unicodedata.normalize("NFKD", label.translate(LETTERS)).encode("ascii", "ignore").decode()
    plain = re.sub(r"[^A-Za-z0-9_-]+", "-", plain).strip("-_")
    if not plain:
        return f"router-{place}"
    return (plain if plain[0].isalpha() else f"r-{plain}")[:32]


def router_text(router):
    overload = "overload = true\n" if router.overload else ""
    return (
        f'[[router]]\nname = "{router.name}"{router.mark("name")}\nsystem = "{router.system}"{router.mark("system")}\n'
        f'prefix = "{router.prefix}"{router.mark("prefix")}\n{overload}'
    )


def bier_text(router, subdomain, sub):
    return f'[[bier]]\nrouter = "{router.name}"\nsd = {subdomain}\nid = {sub.bfr_id}{router.mark(("id", subdomain))}\n'


def labels_text(router, subdomain, entry):
    bits, highest, label = entry
    return (
        f'[[labels]]\nrouter = "{router.name}"\nsd = {subdomain}\nbsl = {bits}\nmax_si = {highest}\n'
        f'label = {label}{router.mark(("label", subdomain, bits))}\n'
    )


def link_text(link):
    mark = MARK if link.is_assigned else ""
    macs = "".join(f'{key} = "{mac}"\n' for key, mac in (("mac_a", link.mac_a), ("mac_b", link.mac_b)) if mac)
    metrics = f"metric_ab = {link.metric_ab}{mark}\nmetric_ba = {link.metric_ba}{mark}\n"
    return f'[[link]]\na = "{link.a.name}"\nb = "{link.b.name}"\n{metrics}{macs}'
