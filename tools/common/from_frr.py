"""A network from what an FRR router shows: `show isis database detail`, as JSON or text, `show isis topology json` and
`show isis hostname`.

In an LSP's ID FRR writes the host name, and in the lists of neighbors the system ID. LSPs are shown in the order of their system
IDs, so the n-th router has the n-th system ID that neighbors list, where each router is listed; else `show isis hostname` has the
two together.
"""
import json
import re

from .lsps import Lsp, network_of
from .network import SYSTEM, prefix_number
from .trouble import Trouble

LSP_ID = re.compile(r"(.+)\.([0-9a-fA-F]{2})-([0-9a-fA-F]{2})\Z")
NAME = re.compile(r"(\S+)\Z")
AREA = re.compile(r"([0-9a-fA-F]{2}(?:\.?[0-9a-fA-F]{2}){0,12})\Z")
REACH_ID = re.compile(r"(.+)\.([0-9a-fA-F]{2})\Z")
HEAD = re.compile(r"(\S+)\s+\*?\s*\d+\s+0x([0-9a-f]+)\s+0x[0-9a-f]+\s+(\(?)(\d+)\)?\s+\d/\d/(\d)\s*\Z")
LEVEL = re.compile(r"IS-IS Level-([12]) link-state database")
DETAIL = re.compile(r"\s+([A-Za-z ]+): (\S+)(?: \(Metric: (\d+)\))?")
HOST = re.compile(r"(?:[12]|\s+\*)\s+([0-9a-f]{4}\.[0-9a-f]{4}\.[0-9a-f]{4})\s+(\S+)\s*\Z")
LONGEST_NAME = 14  # of a host name in an LSP's ID


class Fault(Exception):
    """What is wrong at a place of a document."""


def plain(key):
    """A key as all versions have it: `ext-reach` is `extReach`."""
    return key.replace("-", "").lower()


def fields(value, place):
    if not isinstance(value, dict):
        raise Fault(f"{place}: not an object")
    return {plain(key): inside for key, inside in value.items()}


def entries(value, place):
    """The entries of an array; one alone may be without its array."""
    if value is None:
        return []
    listed = value if isinstance(value, list) else [value]
    return [(fields(entry, f"{place}[{at}]"), f"{place}[{at}]") for at, entry in enumerate(listed)]


def number(value, place):
    if isinstance(value, bool) or not isinstance(value, (int, str)):
        raise Fault(f"{place}: not a number")
    try:
        return value if isinstance(value, int) else int(value.strip("()"), 0)
    except ValueError:
        raise Fault(f"{place}: {value!r} isn't a number")


def matched(rule, value, place, what):
    found = rule.match(value) if isinstance(value, str) else None
    if not found:
        raise Fault(f"{place}: {value!r} isn't {what}")
    return found.groups()


# ---- the database as JSON


def database(document):
    """The LSPs of `show isis database detail json`, in its order."""
    found = []
    for area, place in entries(fields(document, "the document").get("areas"), "areas"):
        for level, inside in entries(area.get("levels"), f"{place}.levels"):
            if "lsp" in level:
                raise Fault(
                    f"{inside}: contains only the last LSP, since FRR 8.4 overwrites the others; give the text of"
                    " `show isis database detail` instead"
                )
            number_of_level = number(level["id"], f"{inside}.id") if "id" in level else 2
            found += [lsp_of(it, at, number_of_level) for it, at in entries(level.get("lsps"), f"{inside}.lsps")]
    return found


def lsp_of(it, place, level):
    name, pseudonode, fragment = matched(LSP_ID, fields(it.get("lsp"), f"{place}.lsp").get("id"), f"{place}.lsp.id", "an LSP ID")
    lsp = Lsp(level, name, int(pseudonode, 16), int(fragment, 16))
    lsp.sequence = number(it.get("seqnumber", 0), f"{place}.seqNumber")
    lsp.life = number(it.get("holdtime", 1), f"{place}.holdtime")
    lsp.overload = str(it.get("attpol", "0/0/0")).endswith("/1")
    lsp.name = matched(NAME, it["hostname"], f"{place}.hostname", "a name")[0] if "hostname" in it else None
    lsp.router_id = router_id(it.get("terouterid"))
    areas = it.get("areaaddr", [])
    for area in areas if isinstance(areas, list) else [areas]:
        lsp.areas.append(matched(AREA, area, f"{place}.areaAddr", "an area address")[0].replace(".", "").lower())
    for reach, at in entries(it.get("extreach"), f"{place}.extReach"):
        if reach.get("mtid", "Extended") == "Extended":
            system, octet = matched(REACH_ID, reach.get("id"), f"{at}.id", "a neighbor")
            lsp.reaches.append((system, int(octet, 16), number(reach.get("metric"), f"{at}.metric")))
    for reach, at in entries(it.get("extipreach"), f"{place}.extIpReach"):
        if "ipreach" in reach and reach.get("mtid", "Extended") == "Extended":
            add_prefix(lsp, reach["ipreach"], number(reach.get("ipreachmetric"), f"{at}.ipReachMetric"), f"{at}.ipReach")
    return lsp


def router_id(text):
    return text if isinstance(text, str) and prefix_number(text) else None


def add_prefix(lsp, text, metric, place):
    prefix, slash, bits = text.partition("/") if isinstance(text, str) else ("", "", "")
    if not slash or not bits.isdigit():
        raise Fault(f"{place}: {text!r} isn't a prefix")
    if int(bits) == 32 and prefix_number(prefix):
        lsp.prefixes.append((prefix, 32, metric))


# ---- the database as text


def database_text(text):
    """The LSPs of `show isis database detail`, in its order."""
    found, level, lsp = [], 2, None
    for line_number, line in enumerate(text.splitlines(), 1):
        place = f"line {line_number}"
        head, which, detail = HEAD.match(line), LEVEL.match(line), DETAIL.match(line)
        if which:
            level = int(which.group(1))
        elif head:
            name, sequence, _, life, overload = head.groups()
            system, pseudonode, fragment = matched(LSP_ID, name, place, "an LSP ID")
            lsp = Lsp(level, system, int(pseudonode, 16), int(fragment, 16), int(sequence, 16), int(life))
            lsp.overload = overload == "1"
            found.append(lsp)
        elif detail and lsp is not None:
            add_detail(lsp, *detail.groups(), place)
    return found


def add_detail(lsp, what, value, metric, place):
    if what == "Hostname":
        lsp.name = value
    elif what == "Area Address":
        lsp.areas.append(matched(AREA, value, place, "an area address")[0].replace(".", "").lower())
    elif what == "TE Router ID":
        lsp.router_id = router_id(value)
    elif what == "Extended Reachability" and metric:
        system, octet = matched(REACH_ID, value, place, "a neighbor")
        lsp.reaches.append((system, int(octet, 16), int(metric)))
    elif what == "Extended IP Reachability" and metric:
        add_prefix(lsp, value, int(metric), place)


# ---- system IDs


def groups_of(lsps):
    """The LSPs of each router: they stand together, fragment 0 of pseudonode 0 first. Names are cut, and may be equal."""
    groups = []
    for lsp in lsps:
        begins = not lsp.pseudonode and not lsp.fragment
        if begins or not groups or groups[-1][0].system != lsp.system:
            groups.append([])
        groups[-1].append(lsp)
    return groups


def hosts(text):
    """The system ID of each name in `show isis hostname`."""
    return {found.group(2): found.group(1) for found in map(HOST.match, text.splitlines()) if found}


def assign_systems(lsps, known, path):
    """Puts system IDs in place of the names in LSP IDs."""
    for level in sorted({lsp.level for lsp in lsps}):
        own = [lsp for lsp in lsps if lsp.level == level]
        groups = groups_of(own)
        systems = [system_by_name(group, known) for group in groups]
        if None in systems or len(set(systems)) < len(systems):
            systems = systems_by_order(groups, own)
        if systems is None:
            raise Trouble(
                f"{path}: which system ID a router of level {level} has is ambiguous: give the output of `show isis hostname` too"
            )
        for group, system in zip(groups, systems):
            for lsp in group:
                lsp.system = system


def system_by_name(group, known):
    first = group[0]
    if SYSTEM.match(first.system):
        return first.system.lower()
    return known.get(first.name) or known.get(first.system)


def systems_by_order(groups, lsps):
    """The n-th of the listed system IDs for the n-th router; None where lists don't fit that."""
    listed = sorted({system.lower() for lsp in lsps for system, _, _ in lsp.reaches})
    if len(listed) != len(groups) or not all(SYSTEM.match(system) for system in listed):
        return None
    ends, lans = set(), set()
    for group, own in zip(groups, listed):
        for lsp in group:
            for system, pseudonode, _ in lsp.reaches:
                a, b = (own, lsp.pseudonode), (system.lower(), pseudonode)
                ends.add((a, b))
                lans |= {it for it in (a, b) if it[1]}
    fits = all((b, a) in ends for a, b in ends)
    return listed if fits else None


# ---- the topology


def reached(document):
    """The names that `show isis topology json` has a path to, and the router that showed it."""
    found, root = set(), None
    for area, place in entries(document, "the document"):
        for key, level in area.items():
            if key.startswith("level") and isinstance(level, dict):
                for vertex, _ in entries(fields(level, place).get("ipv4paths"), f"{place}.{key}.ipv4-paths"):
                    name, kind = vertex.get("vertex"), vertex.get("type")
                    if name and isinstance(kind, str) and (kind == "" or kind.endswith("IS")) and "pseudo" not in kind:
                        found.add(name)
                        root = root or name
    return found, root


def note_unreached(network, shown):
    names, root = shown
    for router in network.routers:
        if names and not names & {router.label, router.system, (router.label or "")[:LONGEST_NAME]}:
            network.note(f"{router.noted()}: the topology of {root} has no path to it")


def parsed(path, text):
    try:
        return json.loads(text)
    except json.JSONDecodeError as fault:
        raise Trouble(f"{path}:{fault.lineno}: not JSON: {fault.msg}")
    except RecursionError:
        raise Trouble(f"{path}: not JSON that is read: nested too deeply")


def kind_of(text):
    """What of FRR's a text is: hostname, text, or a kind of JSON; None where it is none of these."""
    if "Dynamic Hostname" in text[:2000]:
        return "hostname"
    if LEVEL.search(text[:5000]):
        return "text"
    return "json" if text.lstrip()[:1] in ("{", "[") else None


def read(sources, options):
    """The network of a database, with what other files tell of it; sources are paths with their texts."""
    lsps, known, shown, main = [], {}, None, None
    for path, text in sources:
        try:
            kind = kind_of(text)
            if kind == "hostname":
                known.update(hosts(text))
                continue
            document = parsed(path, text) if kind == "json" else None
            if isinstance(document, list):
                shown = reached(document)
                continue
            if main:
                raise Trouble(f"{path}: a second database beside {main}")
            lsps, main = (database(document) if kind == "json" else database_text(text)), path
        except Fault as fault:
            raise Trouble(f"{path}: {fault}")
    if main is None:
        raise Trouble(
            f"{sources[0][0]}: no database: a topology has only the shortest-path tree; give the output of"
            " `show isis database detail json` too"
        )
    if not lsps:
        raise Trouble(f"{main}: no LSPs")
    lsps = [lsp for lsp in lsps if lsp.life > 0]
    assign_systems(lsps, known, main)
    network, _ = network_of(lsps, options, main)
    if shown:
        note_unreached(network, shown)
    return network
