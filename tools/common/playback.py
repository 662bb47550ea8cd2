"""A replay as one self-contained HTML page: what `tools/player` writes."""
import base64
import html
import json
import os
import re

from . import frames, layout, places
from .trouble import read_text


class Numbering:
    """Gives equal things the same number, in order of first occurrence."""

    def __init__(self):
        self.numbers, self.things = {}, []

    def __call__(self, thing):
        if thing not in self.numbers:
            self.numbers[thing] = len(self.things)
            self.things.append(thing)
        return self.numbers[thing]


class Databases:
    """LSDBs as numbers, and their entries as numbers."""

    def __init__(self, it):
        self.it, self.entries, self.databases = it, Numbering(), Numbering()

    def number(self, held):
        return self.databases(tuple(self.entries(self.entry(*entry)) for entry in held))

    def entry(self, lsp_id, sequence, is_live, checksum):
        place = self.it.by_system.get(lsp_id[:6])
        name = lsp_id[:6].hex() if place is None else self.it.name(place)
        return f"{name}.{lsp_id[6]:02x}-{lsp_id[7]:02x}", sequence, is_live, f"{checksum:04x}"


def ids_text(it, router):
    if router.plain:
        return "non-BFR"
    many = len(it.kinds) > 1
    return " ".join(
        f"{subdomain}:{bfr_id or '–'}" if many else f"BFR-id {bfr_id}" if bfr_id else "transit"
        for subdomain, bfr_id in router.ids()
    )


def routers(it):
    # Graphviz, which draws the same layout in tools/picture, counts upward, and the page downward.
    spots = layout.place(it)
    top = max(y for _, y in spots)
    return [
        {
            "name": router.name,
            "system": router.system.hex(),
            "prefix": ".".join(map(str, router.prefix)),
            "ids": ids_text(it, router),
            "own": dict(router.ids()),
            "plain": router.plain,
            "overload": router.overload,
            "x": round(x, 3),
            "y": round(top - y, 3),
        }
        for router, (x, y) in zip(it.routers, spots)
    ]


def first_id(item):
    """The BFR-id of bit position 1 in a packet's set."""
    header, _ = frames.data_of(item.record.octets)
    return (item.ids[0] - 1) // header.bits * header.bits + 1


def frame(item, heads, bodies):
    octets = item.record.octets
    spot = [item.a, item.b, item.injection or 0, heads(octets[:12].hex()), bodies(octets[12:])]
    return spot + ([first_id(item), item.subdomain] if item.injection else [])


def line(step, databases):
    """One line of the schedule, with the short names that the page's script explains."""
    ended = {how: [item.record.number for item, kind in step.ended if kind == how] for how in ("taken", "lost", "link")}
    return {
        "t": step.text,
        "s": [step.sent[0].record.number if step.sent else 0, len(step.sent)],
        "x": ended["taken"],
        "l": ended["lost"],
        "m": ended["link"],
        "r": [item.record.number for item in step.repeated],
        "g": [told.text for told in step.told],
        "u": step.ends,
        "d": [[place, databases.number(held)] for place, held in step.databases.items()],
    }


def page_data(it, path, tables=None):
    """All that the page shows. `tables` are those of `tables.page_tables`, where the page has them."""
    heads, bodies, databases = Numbering(), Numbering(), Databases(it)
    start = [databases.number(path.start[place]) for place in range(len(it.routers))]
    lines = [line(step, databases) for step in path.steps]
    sent = [frame(item, heads, bodies) for step in path.steps for item in step.sent]
    return {
        "end": path.report.end,
        "routers": routers(it),
        "links": list(it.links()),
        "start": start,
        "down": path.down_at_start,
        "lines": lines,
        "frames": sent,
        "heads": heads.things,
        "bodies": [base64.b64encode(body).decode() for body in bodies.things],
        "entries": databases.entries.things,
        "databases": databases.databases.things,
        "tables": tables or {"why": "this page has LSDBs alone, without the tables of show_router"},
    }


def page(title, data):
    """The page's parts in one file."""
    folder = os.path.join(places.TOOLS, "page")
    text = json.dumps(data, separators=(",", ":"), ensure_ascii=False).replace("<", "\\u003c")
    script = read_text(os.path.join(folder, "dissect.js")) + read_text(os.path.join(folder, "page.js")).replace(
        '"use strict";\n', "", 1
    )
    parts = {
        "@TITLE@": html.escape(title),
        "@STYLE@": read_text(os.path.join(folder, "page.css")),
        "@DATA@": text,
        "@SCRIPT@": script,
    }
    # In one pass, since a part may contain the mark of another one.
    return re.sub("@[A-Z]+@", lambda found: parts[found.group()], read_text(os.path.join(folder, "page.html")))
