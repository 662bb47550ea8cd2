"""Reads a design file, TOML, and says in one line with its place what is wrong with one."""
import itertools
import os
import re
import tomllib

from common import chance, lengths
from common.domain import read_domain
from common.lines import lines_of
from common.trouble import Trouble, read_text

from .checks import REQUIRED, Wrong, all_or, decimal, each, flag, link_of, one_of, router_of, shown, table, text, whole
from .plan import OF_LINKS, Case, Design, Stream, Times

MOST_PACKETS, MOST_NUMBER, MOST_FLOWS = 10**6, 1e9, 65_536
LENGTHS = (64, 128, 256, 512, 1024, 2048, 4096)
PAIR = ("disjoint",)  # promises that only a redundant pair can keep
TIMED = ("outage_ms", "delay_ms")

OF_STREAMS = {
    "covered": flag,
    "disjoint": flag,
    "lost_unseen": whole(0, MOST_PACKETS),
    "lost_disagreeing": whole(0, MOST_PACKETS),
    "outage_ms": decimal(0, MOST_NUMBER),
    "delay_ms": decimal(0, MOST_NUMBER),
    "hops": whole(0, 255),
    "spare_ttl": whole(0, 255),
}
OF_ALL = {**OF_STREAMS, "load_mbit": decimal(0, MOST_NUMBER)}


def optional(keys):
    return table({key: (check, None) for key, check in keys.items()})


class File:
    """A design file: its text, and the lines of its keys."""

    def __init__(self, path):
        self.path, self.text = path, read_text(path)
        try:
            self.value = tomllib.loads(self.text)
        except tomllib.TOMLDecodeError as error:
            raise Trouble(f"{self.path}{located(str(error))}")
        self.lines = lines_of(self.text)

    def trouble(self, key, why):
        """What is wrong at a key, with the nearest line that is known."""
        near = key
        while near and near not in self.lines:
            near = re.sub(r"(\.[^.\[]*|\[\d+\]|^[^.\[]+)$", "", near)
        where = f"{self.path}:{self.lines[near]}" if near else self.path
        return Trouble(f"{where}: {key}: {why}" if key else f"{where}: {why}")

    def checked(self, key, check, value):
        try:
            return check(value)
        except Wrong as wrong:
            raise self.trouble((key + wrong.key).lstrip("."), wrong.why)


def located(error):
    """A message of tomllib with the line in front."""
    found = re.search(r"^(.*) \(at line (\d+), column (\d+)\)$", error, re.S)
    return f":{found.group(2)}: not TOML: {found.group(1)} (column {found.group(3)})" if found else f": not TOML: {error}"


def read_design(path, domain_path=None):
    """The design in a file. `domain_path` is in place of the domain file that it names."""
    file = File(path)
    keys = {"domain": (text, REQUIRED), "stream": (each(dict_of), REQUIRED), "failures": (dict_of, {})}
    top = file.checked("", table({**keys, "times": (dict_of, {}), "promises": (optional(OF_ALL), {})}), file.value)
    domain_path = domain_path or os.path.join(os.path.dirname(path), top["domain"])
    it = read_domain(domain_path)
    times = times_of(file, it, top["times"])
    promises = {key: value for key, value in top["promises"].items() if value is not None}
    streams = streams_of(file, it, top, promises, times)
    checked_promises(file, streams, promises, times)
    cases = tuple(cases_of(it, failures_of(file, it, top["failures"])))
    of_links = {key: promises[key] for key in OF_LINKS if key in promises}
    design = Design(path, domain_path, read_text(domain_path), it, streams, cases, times["design"], of_links)
    if len(design.flows()) > MOST_FLOWS:
        raise Trouble(f"{path}: more than {MOST_FLOWS} entropies of streams")
    return design


def dict_of(value):
    if not isinstance(value, dict):
        raise Wrong("expected a table")
    return value


# Times


def times_of(file, it, value):
    """The times, as the design has them, and how many packets a stream sends while a failure is unseen; None where it can't be
    said without the stream's packets a second."""
    many = (decimal(0, MOST_NUMBER), None)
    keys = {"unseen_packets": (whole(0, MOST_PACKETS), None), "detection_ms": many, "spf_ms": many, "delay_ms": many}
    given = file.checked("times", table({**keys, "delays": (dict_of, {})}), value)
    timed = [key for key in ("detection_ms", "spf_ms", "delay_ms") if given[key] is not None]
    if timed and len(timed) < 3:
        raise file.trouble(f"times.{timed[0]}", "detection_ms, spf_ms and delay_ms go together")
    if timed and given["unseen_packets"] is not None:
        raise file.trouble("times.unseen_packets", "follows from detection_ms and spf_ms; give either")
    own = delays_of(file, it, given["delays"], bool(timed))
    if not timed:
        packets = 1 if given["unseen_packets"] is None else given["unseen_packets"]
        return {"design": Times(None, None, {}), "packets": packets}
    delays = {way: given["delay_ms"] for a, b, _, _ in it.links() for way in ((a, b), (b, a))} | own
    longest = max(delays.values(), default=given["delay_ms"])
    return {"design": Times(given["detection_ms"] + given["spf_ms"], longest, delays), "packets": None}


def delays_of(file, it, value, is_timed):
    """The delays of single links, by their directions."""
    found = {}
    for name, delay in value.items():
        if not is_timed:
            raise file.trouble("times.delays", "needs detection_ms, spf_ms and delay_ms")
        a, b = file.checked(f"times.delays.{name}", link_of(it), name)
        found[a, b] = found[b, a] = file.checked(f"times.delays.{name}", decimal(0, MOST_NUMBER), delay)
    return found


# Streams


def streams_of(file, it, top, promises, times):
    streams = []
    for number, value in enumerate(top["stream"]):
        stream = stream_of(file, it, f"stream[{number}]", value, promises, times)
        if stream.name in [other.name for other in streams]:
            raise file.trouble(f"stream[{number}].name", f"{shown(stream.name)}: another stream has that name")
        streams.append(stream)
    return tuple(streams)


def stream_keys(it):
    rate = (decimal(0, MOST_NUMBER), None)
    return {
        "name": (text, REQUIRED),
        "ingress": (one_or_two(router_of(it)), REQUIRED),
        "receivers": (all_or_names(router_of(it)), REQUIRED),
        "sub_domain": (one_of(sorted(it.kinds)) if it.kinds else whole(0, 255), min(it.kinds, default=0)),
        "bsl": (one_of(LENGTHS), None),
        "ttl": (whole(1, 255), 64),
        "entropies": (entropies, [0]),
        "mbit": rate,
        "packets_per_second": rate,
        "unseen_packets": (whole(0, MOST_PACKETS), None),
        "promises": (optional(OF_STREAMS), {}),
    }


def one_or_two(check):
    def either(value):
        if not isinstance(value, list):
            return [check(value)]
        found = each(check, 2, 2)(value)
        if found[0] == found[1]:
            raise Wrong("the two ingresses of a redundant pair are two routers")
        return found

    return either


def all_or_names(check):
    def either(value):
        return None if value == "all" else each(check)(value)

    return either


def entropies(value):
    """A list of numbers, or a list of two lists, one for each ingress of a redundant pair."""
    number = whole(0, 2**20 - 1)
    if isinstance(value, list) and value and isinstance(value[0], list):
        return each(each(number), 2, 2)(value)
    return each(number)(value)


def stream_of(file, it, key, value, promises, times):
    if not it.kinds:
        raise file.trouble(key, "the domain has no sub-domain")
    given = file.checked(key, table(stream_keys(it)), value)
    receivers = receivers_of(file, it, key, given)
    own = {name: bound for name, bound in given["promises"].items() if bound is not None}
    return Stream(
        name=given["name"],
        ingresses=tuple(given["ingress"]),
        sd=given["sub_domain"],
        bsl=length_of(file, it, key, given, receivers),
        receivers=receivers,
        ttl=given["ttl"],
        entropies=entropies_of(file, key, given),
        mbit=given["mbit"],
        packets_per_second=given["packets_per_second"],
        unseen_packets=unseen_of(file, key, given, times),
        promises={"covered": True, **{name: promises[name] for name in OF_STREAMS if name in promises}, **own},
    )


def receivers_of(file, it, key, given):
    """The receivers of a stream by their BFR-ids."""
    subdomain, found = given["sub_domain"], {}
    members = [router for router in it.routers if router.id_in(subdomain)]
    for place in given["ingress"]:
        if it.routers[place] not in members:
            raise file.trouble(f"{key}.ingress", f"{it.name(place)} has no BFR-id in sub-domain {subdomain}")
    places = given["receivers"]
    if places is None:
        places = [router.place for router in members if router.place not in given["ingress"]]
    for number, place in enumerate(places):
        bfr_id, where = it.routers[place].id_in(subdomain), f"{key}.receivers[{number}]"
        if not bfr_id:
            raise file.trouble(where, f"{it.name(place)} has no BFR-id in sub-domain {subdomain}")
        if bfr_id in found:
            raise file.trouble(where, twice_text(it, place, found[bfr_id], bfr_id))
        found[bfr_id] = place
    if not found:
        raise file.trouble(f"{key}.receivers", "there is no receiver")
    return found


def twice_text(it, place, before, bfr_id):
    if before == place:
        return f"{it.name(place)} is twice a receiver"
    return f"{it.name(place)} has BFR-id {bfr_id}, as {it.name(before)} has"


def length_of(file, it, key, given, receivers):
    """The BitString length that is given; else the shortest that the ingresses and receivers support for all receivers."""
    subdomain = given["sub_domain"]
    ends = [it.routers[place] for place in (*given["ingress"], *receivers.values())]
    if given["bsl"] is None:
        found = lengths.shortest(it, subdomain, ends, receivers)
        if found is None:
            raise file.trouble(key, "its ingress and receivers support no common BitString length; give a bsl")
        return found
    for place in given["ingress"]:
        if not lengths.supports(it, it.routers[place], subdomain, given["bsl"]):
            raise file.trouble(f"{key}.bsl", f"{it.name(place)} doesn't support {given['bsl']} bits in sub-domain {subdomain}")
    return given["bsl"]


def entropies_of(file, key, given):
    value, legs = given["entropies"], len(given["ingress"])
    if not isinstance(value[0], list):
        return (tuple(value),) * legs
    if legs == 1:
        raise file.trouble(f"{key}.entropies", "two lists are for two ingresses")
    return tuple(map(tuple, value))


def unseen_of(file, key, given, times):
    """How many packets of a stream enter before the routers at a failure forward over other paths."""
    if times["packets"] is not None:
        return times["packets"] if given["unseen_packets"] is None else given["unseen_packets"]
    if given["unseen_packets"] is not None:
        raise file.trouble(f"{key}.unseen_packets", "follows from detection_ms and spf_ms")
    if given["packets_per_second"] is None:
        raise file.trouble(key, "the key packets_per_second is missing, which detection_ms needs")
    unseen = given["packets_per_second"] * times["design"].unseen_ms / 1000
    return int(-(-unseen // 1))


def checked_promises(file, streams, promises, times):
    """Promises that the design can't be held to are errors."""
    without = [number for number, stream in enumerate(streams) if stream.mbit is None]
    if without and ("load_mbit" in promises or len(without) < len(streams)):
        raise file.trouble(f"stream[{without[0]}]", "the key mbit is missing, which loads need")
    for name in TIMED:
        holders = [f"stream[{number}]" for number, stream in enumerate(streams) if name in stream.promises]
        if holders and times["design"].round_ms is None:
            key = f"promises.{name}" if name in promises else f"{holders[0]}.promises.{name}"
            raise file.trouble(key, "needs the [times] detection_ms, spf_ms and delay_ms")
    for name in PAIR:
        if name in promises and not any(stream.is_pair for stream in streams):
            raise file.trouble(f"promises.{name}", "no stream has two ingresses")


# Failures


def failures_of(file, it, value):
    group = table({"name": (text, REQUIRED), "links": (each(link_of(it), 0), []), "routers": (each(router_of(it), 0), [])})
    keys = {"links": (all_or(link_of(it)), True), "routers": (all_or(router_of(it)), False), "pairs": (flag, False)}
    given = file.checked("failures", table({**keys, "group": (each(group, 0), [])}), value)
    names = [entry["name"] for entry in given["group"]]
    for number, entry in enumerate(given["group"]):
        if names.index(entry["name"]) < number:
            raise file.trouble(f"failures.group[{number}].name", f"{shown(entry['name'])}: another group has that name")
        if not entry["links"] and not entry["routers"]:
            raise file.trouble(f"failures.group[{number}]", "names no link and no router")
    return given


def chosen(value, all_of):
    return list(all_of) if value is True else value or []


def cases_of(it, failures):
    """What the design is tried with: no failure, and each failure that it names."""
    links = [(a, b) for a, b, _, _ in it.links()]
    yield Case("none", "none", (), ())
    for link in chosen(failures["links"], links):
        yield case_of("link", chance.failure_of(it, [link]))
    for place in chosen(failures["routers"], range(len(it.routers))):
        yield case_of("router", chance.router_failure(it, it.routers[place], links))
    if failures["pairs"]:
        for pair in itertools.combinations(links, 2):
            yield case_of("pair", chance.failure_of(it, pair))
    for entry in failures["group"]:
        own = [link for link in links if link in entry["links"] or set(link) & set(entry["routers"])]
        yield Case(entry["name"], "group", tuple(own), tuple(entry["routers"]))


def case_of(kind, failure):
    return Case(failure.name, kind, tuple(failure.links), tuple(failure.routers))
