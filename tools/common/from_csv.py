"""A network from CSV: tables of routers and of links, each below a line with the names of its columns.

A table whose columns have `name` is one of routers, one that has `a` and `b` is one of links. Tables are in one file, separated by
empty lines, or in several; lines that begin with # are skipped.
"""
import csv
import io
import os

from .network import MAC, MOST_LABEL, MOST_METRIC, SYSTEM, Link, Network, Router, Sub, prefix_number
from .trouble import Trouble

ROUTER_COLUMNS = ("name", "system", "prefix", "overload", "id", "label")
LINK_COLUMNS = ("a", "b", "metric", "metric_ab", "metric_ba", "mac_a", "mac_b")
TRUE, FALSE = ("1", "true", "yes"), ("", "0", "false", "no")


class Row:
    """A line of a table: its values by column, and its place for errors."""

    def __init__(self, path, line, columns, cells):
        self.place = f"{path}:{line}"
        if any(cell.strip() for cell in cells[len(columns) :]):
            raise Trouble(f"{self.place}: more values than columns")
        self.values = dict(zip(columns, (cell.strip() for cell in cells)))

    def get(self, column):
        return self.values.get(column) or None

    def number(self, column, least, most):
        text = self.get(column)
        if text is None:
            return None
        if not (text.isdigit() and text.isascii() and least <= int(text) <= most):
            raise Trouble(f"{self.place}: {column}: {text!r} isn't a number from {least} to {most}")
        return int(text)

    def matching(self, column, fits, form):
        text = self.get(column)
        if text is not None and not fits(text):
            raise Trouble(f"{self.place}: {column}: {text!r} isn't of the form {form}")
        return text


def rows_of(path, text, network):
    """The rows of all tables, each with whether it is a link."""
    first = next((line for line in text.splitlines() if line.strip() and not line.startswith("#")), "")
    reader, columns = csv.reader(io.StringIO(text), delimiter=max(",;\t", key=first.count)), None
    line = 1
    try:
        for cells in reader:
            place, line = line, reader.line_num + 1
            if not any(cell.strip() for cell in cells):
                columns = None
            elif cells[0].startswith("#"):
                continue
            elif columns is None:
                columns = columns_of(cells, f"{path}:{place}", network)
            else:
                yield Row(path, place, columns, cells), "a" in columns
    except csv.Error as fault:
        raise Trouble(f"{path}:{reader.line_num}: {fault}")


def columns_of(cells, place, network):
    """The columns of a table, by its first line; those that mean nothing here are named."""
    # `A` may be a router's name, in a table that lacks its columns.
    names = [cell.strip().lower() if len(cell.strip()) > 1 else cell.strip() for cell in cells]
    if "name" not in names and not {"a", "b"} <= set(names):
        raise Trouble(f"{place}: a table begins with the names of its columns: `name` for routers, `a` and `b` for links")
    known, found = ROUTER_COLUMNS if "name" in names else LINK_COLUMNS, []
    for cell, name in zip(cells, names):
        if name and name in found:
            raise Trouble(f"{place}: column {name!r} appears twice")
        if name and name not in known:
            network.note(f"{os.path.basename(place)}: column {cell.strip()!r} is ignored")
        found.append(name if name in known else "")
    return found


class Reader:
    def __init__(self, options):
        self.options, self.network = options, Network(options.level, options.area)
        self.routers, self.has_table, self.lengths = {}, False, []

    def router(self, row):
        name = row.get("name")
        if name is None:
            raise Trouble(f"{row.place}: a router without a name")
        if name in self.routers:
            raise Trouble(f"{row.place}: a second router {name!r}")
        overload = (row.get("overload") or "").lower()
        if overload not in TRUE + FALSE:
            raise Trouble(f"{row.place}: overload: {overload!r} is neither true nor false")
        system = row.matching("system", SYSTEM.match, "0000.0000.0001")
        prefix = row.matching("prefix", prefix_number, "10.0.0.1, the first number 1 to 223")
        router = Router(name, system, prefix, overload in TRUE)
        router.where = f"{os.path.basename(row.place)}: "
        self.routers[name] = router
        self.network.routers.append(router)
        bfr_id, label = row.number("id", 0, 65535), row.number("label", 16, MOST_LABEL)
        if label is not None and bfr_id is None:
            raise Trouble(f"{row.place}: a label without an id: a non-BFR has none")
        if bfr_id is not None:
            self.network.has_bier = True
            self.lengths.append((router, bfr_id, label, row.place))

    def end(self, row, column):
        name = row.get(column)
        if name is None:
            raise Trouble(f"{row.place}: a link without {column}")
        if name not in self.routers:
            if self.has_table:
                raise Trouble(f"{row.place}: {column}: no router is named {name!r}")
            self.routers[name] = Router(name)
            self.network.routers.append(self.routers[name])
        return self.routers[name]

    def link(self, row):
        a, b = self.end(row, "a"), self.end(row, "b")
        both = row.number("metric", 1, MOST_METRIC)
        metrics = [row.number(column, 1, MOST_METRIC) or both for column in ("metric_ab", "metric_ba")]
        form = "02:00:00:00:00:01, the first octet even"
        macs = [row.matching(column, is_mac, form) for column in ("mac_a", "mac_b")]
        link = Link(a, b, *(metric or self.options.metric for metric in metrics), *macs)
        link.is_assigned, link.where = None in metrics, f"{os.path.basename(row.place)}: "
        self.network.add_link(link)

    def assign_labels(self):
        """BFR-ids of the source, and label ranges of the sets that they need."""
        subdomain, bits = self.options.sub_domain, self.options.bsl
        highest = (max([1, *(bfr_id for _, bfr_id, _, _ in self.lengths)]) - 1) // bits
        if highest > 255:
            raise Trouble(f"--bsl {bits}: the BFR-ids need {highest + 1} sets, more than 256")
        next_label, is_mpls = self.options.label_base, self.options.kind == "mpls"
        for router, bfr_id, label, place in self.lengths:
            if is_mpls and label is None:
                label = next_label
                router.assigned.add(("label", subdomain, bits))
            if is_mpls and label + highest > MOST_LABEL:
                raise Trouble(f"{place}: the labels {label} to {label + highest} pass {MOST_LABEL}")
            next_label += highest + 1
            router.subs[subdomain] = Sub(bfr_id, [(bits, highest, label)] if is_mpls else [])


def is_mac(text):
    return MAC.match(text) and int(text[:2], 16) % 2 == 0


def read(sources, options):
    """The network of one or more files, as paths with their texts; routers are read first."""
    reader = Reader(options)
    rows = [entry for path, text in sources for entry in rows_of(path, text, reader.network)]
    for row in [row for row, is_link in rows if not is_link]:
        reader.has_table = True
        reader.router(row)
    for row in [row for row, is_link in rows if is_link]:
        reader.link(row)
    if not reader.network.routers:
        raise Trouble(f"{sources[0][0]}: no routers")
    reader.assign_labels()
    return reader.network
