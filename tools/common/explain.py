"""What a line `refused ..` of a report means: file and line, the value there, and what is expected."""
import os
import re
import tomllib

from . import places  # sets where the independent program is found
from .lines import lines_of
from .texts import HELLO_LINES
from .trouble import Trouble, read_octets

import model as independent

LENGTHS = "64, 128, 256, 512, 1024, 2048 or 4096"
NAME = "the name of a [[router]]"
MAC = "an Ethernet address as 02:00:00:00:00:01, its first octet even"
EXPECTED = {
    "level": "1 or 2",
    "area": "1 to 13 octets in hexadecimal digits, in quotes",
    "subdomain.sd": "a number from 0 to 255",
    "subdomain.kind": '"mpls" or "configured"',
    "row.sd": 'the sd of a [[subdomain]] of kind "configured"',
    "row.bsl": LENGTHS,
    "row.si": "a number from 0 to 255",
    "row.bift": "a number from 1 to 1048575",
    "router.name": "a letter, and at most 31 letters, digits, _ and -",
    "router.system": "a system identifier as 0000.0000.0001, in quotes",
    "router.prefix": "an address as 10.0.0.1, the first number 1 to 223, no leading zeros, in quotes",
    "router.overload": "true or false",
    "bier.router": NAME,
    "bier.sd": "the sd of a [[subdomain]]",
    "bier.id": "a BFR-id from 0 to 65535",
    "labels.router": NAME,
    "labels.sd": 'the sd of a [[subdomain]] of kind "mpls" of which the router has a [[bier]] entry',
    "labels.bsl": LENGTHS,
    "labels.max_si": "a number from 0 to 255",
    "labels.label": "a label from 16 to 1048575",
    "link.a": NAME,
    "link.b": "the name of another [[router]]",
    "link.metric_ab": "a metric from 1 to 16777214",
    "link.metric_ba": "a metric from 1 to 16777214",
    "link.mac_a": MAC,
    "link.mac_b": MAC,
}
OPTIONAL = ("router.overload", "link.mac_a", "link.mac_b")
ARRAYS = sorted({key.split(".")[0] for key in EXPECTED if "." in key})
LIMITS = {"subdomain": 8, "row": 2048, "router": 1000, "bier": 4000, "labels": 16000, "link": 8000}
# The keys that must not be the same in two entries, by the key that is named.
TOGETHER = {
    "row.si": ("sd", "bsl", "si"),
    "bier.sd": ("router", "sd"),
    "labels.bsl": ("router", "sd", "bsl"),
}
TEXTS = {
    1: "an unknown first word, or a wrong number of words",
    2: "a number that isn't one, or is out of its range",
    3: "no router has that name",
    4: "the payload isn't an even number of hexadecimal digits, at most 4,000, or -",
    5: "the line has more than 16,384 octets",
    6: "the input has more than 67,108,864 octets",
}
EVENTS = {
    1: "16,000,000 events were done",
    2: "no link joins the two routers",
    3: "`up` needs an interface that is down, `down` and `send` one that is up",
    4: "500,000 frames are in flight",
    5: "no frame has that index",
    6: "only IS-IS frames can be repeated",
    8: "the router neither is in the sub-domain nor left it, or has no label range of that BitString length there",
    9: "`leave` needs a sub-domain that the router is in, `join` one that it left",
    10: "the range would end above label 1,048,575",
    11: "a label of the range is in a range that the router has or had",
    12: "1,000 ranges of the router were moved already",
}
# What is different for the lines of hellos.
HELLO_EVENTS = {
    1: "16,000,000 events of hellos were done, or 16,000,000 others",
    3: "`hello` and `break` need a circuit that works, `mend` a broken one",
    4: "100,000 hellos are in flight",
}
EDGES = {
    1: "the packet is for no BFR-id",
    2: "0 is no BFR-id",
    3: "the set identifier of the BFR-id is above 255 at that BitString length",
    4: "the router has no BFR-id in the sub-domain",
    5: "the router doesn't support that BitString length in the sub-domain",
}


# Domain files


class Conf:
    """A domain file that was rejected."""

    def __init__(self, path):
        self.path, self.octets = path, read_octets(path)
        self.text = self.octets.decode("utf-8-sig", "replace")
        try:
            self.document, self.fault = independent.read_toml(self.octets), None
        except independent.ConfFault:
            self.document, self.fault = {}, toml_fault(self.octets)
        self.lines = lines_of(self.text) if self.document else {}

    def entries(self, array):
        found = self.document.get(array, [])
        return found if isinstance(found, list) else []

    def at(self, path):
        """The file, and the line of a key or of its entry where that is known."""
        line = self.lines.get(path) or self.lines.get(path.rpartition(".")[0])
        return f"{self.path}:{line}" if line else self.path


def toml_fault(octets):
    try:
        tomllib.loads(octets.decode("utf-8-sig"))
    except UnicodeDecodeError as error:
        return f"not UTF-8 at octet {error.start}"
    except (tomllib.TOMLDecodeError, RecursionError) as error:
        return str(error) or "nested too deeply"
    return "not TOML"


class Place:
    """A place in a rejected domain file, as `link[16].b`, with the entry and the kind of the key."""

    def __init__(self, conf, path):
        found = re.fullmatch(r"(\w+)\[(\d+)\](?:\.(.+))?", path)
        self.conf, self.path = conf, path
        self.array, self.at, self.key = (found.group(1), int(found.group(2)), found.group(3)) if found else (path, None, None)
        entries = conf.entries(self.array)
        is_entry = self.at is not None and self.at < len(entries) and isinstance(entries[self.at], dict)
        self.entry = entries[self.at] if is_entry else {}
        self.kind = f"{self.array}.{self.key}" if self.key else path
        # The key's own name, and the table that it is in.
        self.name, self.table = (self.key, self.entry) if self.key else (path, conf.document)

    def earlier(self):
        """The path of the first entry that has the same."""
        for at, other in enumerate(self.conf.entries(self.array)[: self.at]):
            if self.kind == "link.b":
                is_same = {self.entry.get("a"), self.entry.get("b")} == {other.get("a"), other.get("b")}
            else:
                is_same = same(self.entry, other, TOGETHER.get(self.kind, (self.key,)))
            if is_same:
                return f"{self.array}[{at}].{self.key}"
        return None


def same(entry, other, keys):
    return all(str(entry.get(key)).lower() == str(other.get(key)).lower() for key in keys)


def conf(path, refusal):
    """A rejected domain file, by what follows `refused conf` in the report: number, name and place."""
    number, _, text = refusal.split(" ", 2)
    it = Conf(path)
    if number == "1":
        return f"{path}: not TOML: {it.fault or 'a reader of TOML 1.1 accepts it'}"
    place = Place(it, text)
    return f"{it.at(text)}: {limit_text(place) if number == '7' else key_text(number, place)}"


def key_text(number, place):
    if place.kind not in EXPECTED and place.kind not in ARRAYS:
        own = [kind.split(".")[1] for kind in EXPECTED if kind.startswith(place.array + ".")]
        return f"unknown key `{place.name}`; expected {', '.join(own if place.key else ['level', 'area', *LIMITS])}"
    if place.name not in place.table:
        return f"[[{place.array}]] has no `{place.name}`; expected {EXPECTED[place.kind]}"
    if place.kind in ARRAYS:
        return f"`{place.name}` isn't an array of tables, [[{place.name}]]"
    return f"`{place.name} = {toml_value(place.table[place.name])}`: {reason(number, place)}"


def reason(number, place):
    if number == "3":
        other, beside = place.earlier(), " and ".join(key for key in TOGETHER.get(place.kind, ()) if key != place.key)
        first = f", first in {place.conf.at(other)}" if other else ""
        if place.kind == "link.b":
            return f"the second link between these routers{first}"
        return "stands twice" + (f" for the same {beside}" if beside else "") + first
    if number == "5":
        return labels_text(place)
    if number == "6":
        return reference_text(place)
    return f"expected {EXPECTED[place.kind]}"


def toml_value(value):
    if isinstance(value, bool):
        return str(value).lower()
    return f'"{value}"' if isinstance(value, str) else str(value)[:60]


def labels_text(place):
    entry = place.entry
    last = entry["label"] + entry["max_si"]
    if last > 1048575:
        return f"the last label, {last}, is above 1048575"
    for at, other in enumerate(place.conf.entries("labels")[: place.at]):
        top = other["label"] + other["max_si"]
        if other["router"] == entry["router"] and other["label"] <= last and entry["label"] <= top:
            where = place.conf.at(f"labels[{at}].label")
            return f"labels {entry['label']} to {last} overlap {other['label']} to {top} ({where})"
    return f"expected {EXPECTED['labels.label']}"


def reference_text(place):
    value, expected = place.entry[place.key], EXPECTED[place.kind]
    if expected == NAME or place.array == "link":
        names = [router.get("name") for router in place.conf.entries("router")]
        return "no [[router]] has that name" if value not in names else "the link joins a router to itself"
    kinds = {sub["sd"]: sub["kind"] for sub in place.conf.entries("subdomain")}
    if value not in kinds:
        return f"no [[subdomain]] has that sd; expected {expected}"
    if kinds[value] != {"row": "configured", "labels": "mpls"}.get(place.array, kinds[value]):
        return f'the sub-domain is of kind "{kinds[value]}"; expected {expected}'
    return f"{place.entry['router']} has no [[bier]] entry in that sub-domain"


def limit_text(place):
    if place.path == "-":
        return f"the file has {len(place.conf.octets):,} octets; at most 8,388,608 are read"
    count = len(place.conf.entries(place.array))
    if place.at is None and not count:
        return f"there is no [[{place.array}]]"
    if place.at is None:
        return f"there are {count:,} [[{place.array}]]; at most {LIMITS[place.array]:,} are allowed"
    name = place.entry.get("name")
    links = sum(name in (link.get("a"), link.get("b")) for link in place.conf.entries("link"))
    if links > 64:
        return f"{name} has {links} links; at most 64 are allowed"
    return f"the sub-domains and label ranges of {name} take more than 245 octets of its LSP: 7 for each, and 6 for each range"


# Captures

CAPTURES = {
    1: "not a capture; a compressed file is to be unpacked",
    2: "the version of its format isn't 2.4",
    3: "its link type isn't Ethernet",
    4: "it ends within its file header",
    5: "it ends within that record",
    6: "that record has more than 262,144 octets",
    7: "that record's time is more than 65,535 seconds ahead",
    8: "it has more than 268,435,456 octets",
    12: "the byte order of a section is unknown",
    13: "the major version of a section isn't 1",
    14: "a block has a wrong length",
    15: "that packet is on an interface that its section doesn't have",
    16: "the data of that packet exceed its block, or 262,144 octets",
    17: "an interface has an unknown time resolution, or the packet's time doesn't fit 32 bits of seconds",
    18: "it ends within a block",
}


def record(path, refusal):
    """A rejected capture, by what follows `refused record` in the report."""
    number, code, *_ = refusal.split(" ")
    where = f"{path}, record {number}" if number != "0" else path
    return f"{where}: {CAPTURES.get(int(code), refusal)}"


# Lines of a schedule, and of an input of `hop`


def line(path, refusal):
    """A rejected line, by what follows `refused` in the report; None where that isn't a line."""
    words = refusal.split(" ")
    if len(words) < 4 or words[1] not in ("text", "event"):
        return None
    number, code = int(words[0]), int(words[2])
    text = line_text(path, number)
    reason = TEXTS.get(code) if words[1] == "text" else event_text(code, words, text.split(" ")[0])
    return f"{path}:{number}: {f'`{text}`: ' if text else ''}{reason or ' '.join(words[3:])}"


def event_text(code, words, first):
    """Why an event was rejected, by its number, the report's words, and the line's first word."""
    is_hello = first in HELLO_LINES
    if code == 5:
        what = "hello" if is_hello else "frame"
        return f"there is no {what} {words[4]}; {words[5]} are in flight there, counted from 0"
    if code == 7:
        return EDGES.get(int(words[4]))
    return HELLO_EVENTS.get(code) if is_hello and code in HELLO_EVENTS else EVENTS.get(code)


def line_text(path, number):
    """The text of a line; empty where the file can't be read again."""
    try:
        if not os.path.isfile(path):
            return ""
        rows = read_octets(path).decode("utf-8", "replace").split("\n")
    except Trouble:
        return ""
    text = rows[number - 1].strip() if number <= len(rows) else ""
    return text if len(text) <= 120 else text[:119] + "…"
