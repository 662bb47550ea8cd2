"""What the tool answers: the table, JSON, JUnit's XML and CSV."""
import collections
import csv
import io
import json
from xml.sax.saxutils import quoteattr

from . import judge

MOST_NAMES = 4  # in a row of the table
MOST_ROWS = 8  # of a list below the table
NAMES = {
    "covered": "covered",
    "disjoint": "disjoint paths",
    "lost_unseen": "lost while unseen",
    "lost_disagreeing": "lost while routers disagree",
    "outage_ms": "outage",
    "delay_ms": "delay",
    "hops": "hops",
    "spare_ttl": "spare TTL",
    "load_mbit": "load",
}
UNITS = {"lost_unseen": "packets", "lost_disagreeing": "packets", "outage_ms": "ms", "delay_ms": "ms", "load_mbit": "Mbit/s"}


def plain(value):
    """A number as short as it is exact to three digits."""
    return f"{value:.3f}".rstrip("0").rstrip(".") if isinstance(value, float) else str(value)


def listed(names, most=MOST_NAMES):
    more = f" and {len(names) - most} more" if len(names) > most else ""
    return ", ".join(names[:most]) + more or "-"


def bound_text(row):
    if row.promise in ("covered", "disjoint"):
        return "all"
    unit = UNITS.get(row.promise, "")
    return f"{'≥' if row.promise in judge.LEAST else '≤'} {plain(row.bound)}{' ' + unit if unit else ''}"


def worst_text(row):
    if row.worst is None:
        return "-"
    if row.promise in ("covered", "disjoint"):
        return f"all but {row.worst}" if row.worst else "all"
    return plain(row.worst)


def has_case(row):
    """Whether the worst case of a row is worth naming."""
    return row.worst is not None and (not row.holds or bool(row.affected))


def row_cells(design, row):
    failure = design.cases[row.case].name if has_case(row) else "-"
    verdict = "holds" if row.holds else f"fails in {len(row.broken)} of {row.tried}"
    if row.worst is None:
        verdict = "not tried"
    return [NAMES[row.promise], row.stream, bound_text(row), worst_text(row), verdict, failure, listed(row.affected)]


HEAD = ["promise", "stream", "bound", "worst", "verdict", "worst failure", "affected"]


def left_table(rows):
    """Rows as text, in left-aligned columns."""
    wide = [max(len(row[place]) for row in rows) for place in range(len(rows[0]))]
    return "".join("  ".join(cell.ljust(size) for cell, size in zip(row, wide)).rstrip() + "\n" for row in rows)


def summary(design, rows):
    broken = sum(not row.holds for row in rows)
    kinds = collections.Counter(case.kind for case in design.cases[1:])
    tried = ", ".join(counted(many, kind) for kind, many in kinds.items()) or "none"
    sizes = [len(design.domain.routers), sum(1 for _ in design.domain.links()), len(design.streams)]
    size = ", ".join(counted(many, thing) for many, thing in zip(sizes, ("router", "link", "stream")))
    return f"{size}; failures: {tried}\n{counted(len(rows), 'promise')}, {broken} broken\n"


def counted(many, thing):
    return f"{many} {thing}{'s' if many != 1 else ''}"


def unit_of(design):
    return "copies" if design.streams[0].mbit is None else "Mbit/s"


def table(findings, rows):
    """The whole answer as text."""
    design = findings.design
    out = summary(design, rows) + "\n" + left_table([HEAD, *(row_cells(design, row) for row in rows)])
    return out + "".join("\n" + section for section in sections(findings))


def sections(findings):
    """What stands below the table: parts of the domain, loads, tunnels."""
    found = [parts_text(findings.design), loads_text(findings), tunnels_text(findings)]
    return [section for section in found if section]


def more_text(many):
    return f"and {many - MOST_ROWS} more\n" if many > MOST_ROWS else ""


def parts_text(design):
    found = [(case, judge.parts(design, case)) for case in design.cases]
    lines = [f"{case.name} cuts off {listed([design.domain.name(place) for place in cut])}\n" for case, cut in found if cut]
    return f"Failures that leave the domain in parts:\n{''.join(lines[:MOST_ROWS])}{more_text(len(lines))}" if lines else ""


def saved(load, unicast):
    return f"{100 * (1 - load / unicast):.0f}%" if unicast else "-"


def loads_text(findings):
    """The links with the highest loads, beside unicast replication."""
    design, unit = findings.design, unit_of(findings.design)
    rows = [["from", "to", unit, "unicast", "saved", "in the case"]]
    found = judge.highest_loads(findings)
    for it in found[:MOST_ROWS]:
        names = [design.domain.name(place) for place in it.way]
        cells = [plain(it.load), plain(it.unicast), saved(it.load, it.unicast)]
        rows.append([*names, *cells, design.cases[it.case].name])
    load, unicast = judge.total_loads(findings)
    sums = f"{plain(load)} {unit}, by unicast replication {plain(unicast)}; saved {saved(load, unicast)}"
    head = "Highest loads of links, beside unicast replication by the ingress:\n"
    return f"{head}{left_table(rows)}{more_text(len(found))}Without a failure, over all links: {sums}\n"


def tunnels_text(findings):
    """Which links carry a packet more than once in tunnels, and which non-BFR should become a BFR first."""
    design, unit, repeated = findings.design, unit_of(findings.design), judge.repeated_copies(findings)
    if not repeated:
        return ""
    lines = [
        f"{design.way_name(*way)}: {many + 1} copies of each packet of {design.streams[stream].name}\n"
        for stream, way, many in repeated
    ]
    head = "Links that carry a packet more than once, in tunnels over non-BFRs:\n"
    first = "".join(
        f"{design.domain.name(router)} should become a BFR first: it saves {plain(saves)} {unit} over all links\n"
        for router, saves in judge.gains(findings)[:1]
    )
    return f"{head}{''.join(lines[:MOST_ROWS])}{more_text(len(lines))}{first}"


# Machines


def row_value(design, row):
    return {
        "promise": row.promise,
        "stream": row.stream,
        "bound": row.bound,
        "holds": row.holds,
        "worst": row.worst,
        "failure": design.cases[row.case].name if has_case(row) else None,
        "affected": row.affected,
        "broken_in": [design.cases[case].name for case in row.broken],
        "tried": row.tried,
    }


def load_value(design, it):
    a, b = (design.domain.name(place) for place in it.way)
    return {"from": a, "to": b, "load": it.load, "unicast": it.unicast, "failure": design.cases[it.case].name}


def json_text(findings, rows):
    design = findings.design
    cut = {case.name: [design.domain.name(place) for place in judge.parts(design, case)] for case in design.cases}
    repeated = [
        {"stream": design.streams[stream].name, "from": design.domain.name(a), "to": design.domain.name(b), "copies": many + 1}
        for stream, (a, b), many in judge.repeated_copies(findings)
    ]
    value = {
        "design": design.path,
        "holds": all(row.holds for row in rows),
        "cases": [{"name": case.name, "kind": case.kind} for case in design.cases],
        "promises": [row_value(design, row) for row in rows],
        "parts": {name: names for name, names in cut.items() if names},
        "load_unit": unit_of(design),
        "loads": [load_value(design, it) for it in judge.highest_loads(findings)],
        "repeated_copies": repeated,
        "better_as_bfr": [{"router": design.domain.name(router), "saves": saves} for router, saves in judge.gains(findings)],
    }
    return json.dumps(value, indent=1, ensure_ascii=False) + "\n"


def junit_text(findings, rows):
    """A test case for each promise, as JUnit writes them."""
    design, broken = findings.design, sum(not row.holds for row in rows)
    lines = ['<?xml version="1.0" encoding="UTF-8"?>']
    lines.append(f'<testsuite name={quoteattr(design.path)} tests="{len(rows)}" failures="{broken}" errors="0" skipped="0">')
    for row in rows:
        name = f"{NAMES[row.promise]} {bound_text(row)}"
        case = f"  <testcase classname={quoteattr(row.stream)} name={quoteattr(name)}"
        if row.holds:
            lines.append(case + "/>")
            continue
        failures = listed([design.cases[number].name for number in row.broken], 20)
        text = f"worst: {worst_text(row)} in {design.cases[row.case].name}, {listed(row.affected, 20)}; fails in {failures}"
        lines.append(f"{case}><failure message={quoteattr(text)}/></testcase>")
    return "\n".join([*lines, "</testsuite>"]) + "\n"


OF_FLOWS = ["failure", "stream", "ingress", "entropy", "what", "from", "to"]
COLUMNS = [*OF_FLOWS, "copies", "unicast", "load", "unicast_load", "links", "hops", "delay_ms"]


def csv_text(findings):
    """For each failure and flow a line for each direction of a link with its copies, and one for each receiver with its hops."""
    out = io.StringIO()
    writer = csv.writer(out, lineterminator="\n")
    writer.writerow(COLUMNS)
    for case in sorted(findings.cases):
        for number, it in findings.cases[case].items():
            writer.writerows(flow_lines(findings, case, number, it))
    return out.getvalue()


def flow_lines(findings, case, number, it):
    design, flow = findings.design, findings.flows[number]
    stream, share = design.streams[flow.stream], weight_of(findings, number)
    name = design.domain.name
    begin = [design.cases[case].name, stream.name, name(flow.ingress), flow.entropy]
    for (a, b), (copies, unicast) in sorted(it.tree.links.items()):
        loads = [plain(float(copies * share)), plain(float(unicast * share))] if stream.mbit is not None else ["", ""]
        yield [*begin, "link", name(a), name(b), copies, unicast, *loads, "", "", ""]
    for bfr_id, (links, hops, delay) in it.tree.paths.items():
        if bfr_id in it.got:
            time = plain(float(delay)) if design.times.delays else ""
            yield [*begin, "receiver", name(flow.ingress), name(stream.receivers[bfr_id]), "", "", "", "", links, hops, time]


def weight_of(findings, number):
    return judge.weight(findings.design, findings.flows[number])
