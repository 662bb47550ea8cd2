"""One run of a sweep and its result, and the sums over all runs."""
import collections
import html
import socket
import subprocess
import tempfile

from . import chance, driver, texts
from .domain import Domain, independent
from .trouble import Trouble

GOT, IN_FLIGHT = "got", "flight"
TITLES = {GOT: "delivered", IN_FLIGHT: "in flight"}
COLOURS = {
    GOT: "#2a9d4a",
    "none": "#c9302c",
    "ttl": "#d98e04",
    "lost": "#7b4ab8",
    "link": "#1d5fa8",
    "outer": "#8a5a2b",
    "route": "#5d6b00",
    IN_FLIGHT: "#9aa5b1",
}


# One run


def is_whole(result):
    return "fates" in result


def fates(report, schedule):
    """What became of each BFR-id: how often it was named, delivered, and dropped by each cause."""
    counts = collections.defaultdict(collections.Counter)
    for line in schedule:
        if line.startswith("inject "):
            for bfr_id in set(line.split(" ")[4].split(",")):
                counts[bfr_id]["named"] += 1
    for told in report.told:
        for bfr_id in told.ids:
            counts[str(bfr_id)][GOT if told.is_got else told.cause] += 1
    for count in counts.values():
        count[IN_FLIGHT] = 2 * count["named"] - sum(count.values())
    return {bfr_id: {name: many for name, many in count.items() if many} for bfr_id, count in counts.items()}


def fault_of(counts, report):
    """In what the sums of a run differ from its report's last line; None where they don't."""
    wanted = report.numbers()
    sums = collections.Counter()
    for count in counts.values():
        sums.update(count)
    dropped = sums["named"] - sums[GOT] - sums[IN_FLIGHT]
    found = {"named": sums["named"], "got": sums[GOT], "dropped": dropped, "flight": sums[IN_FLIGHT]}
    wrong = [name for name, many in found.items() if many != wanted.get(name)]
    return f"its lines and its last line differ in {', '.join(wrong)}" if wrong else None


def one(job, rule, number, folder):
    """The result of one run, whose files go to the folder: fates, or why it broke."""
    result = {"run": number, "host": socket.gethostname()}
    try:
        echo = chance.echo_line(rule.domain, rule.options)
        with driver.Driver(job["program"], folder, job["domain"], echo, job["limit"]) as run:
            schedule = chance.Writer(rule, run, number).write()
            report = run.replay(schedule)
        counts = fates(report, schedule)
        fault = fault_of(counts, report)
        if fault:
            raise Trouble(fault)
        return {**result, "fates": counts}
    except subprocess.TimeoutExpired:
        return {**result, "broken": f"it took more than {job['limit']} seconds"}
    except driver.Refused as trouble:
        return {**result, "broken": str(trouble), "final": True}
    except (Trouble, OSError) as trouble:
        return {**result, "broken": str(trouble)}
    except (IndexError, KeyError, TypeError):
        return {**result, "broken": "its capture isn't of its schedule"}


def check_program(job, rule):
    """Trouble where the program doesn't answer a line from a pipe before its input ends."""
    echo = chance.echo_line(rule.domain, rule.options)
    with tempfile.TemporaryDirectory() as folder:
        try:
            with driver.Driver(job["program"], folder, job["domain"], echo, min(job["limit"], 20)) as run:
                run.skip([])
        except subprocess.TimeoutExpired:
            raise Trouble(f"{job['program']}: doesn't answer a line of a schedule from a pipe before the schedule ends")


def rule_of(job):
    return chance.Rule(Domain(independent.read_domain(job["domain"].encode())), job["rule"])


def begin(job):
    """What does a run of a job by its number, for a worker."""
    rule = rule_of(job)

    def do(number):
        with tempfile.TemporaryDirectory() as folder:
            return one(job, rule, number, folder)

    return do


# All runs


def undelivered(result):
    return sum(count.get("named", 0) - count.get(GOT, 0) for count in result["fates"].values())


def worst(results, most):
    """The runs in which the most BFR-ids weren't delivered."""
    bad = [result for result in results if undelivered(result)]
    return sorted(bad, key=lambda result: (-undelivered(result), result["run"]))[:most]


def sums(results):
    total = collections.defaultdict(collections.Counter)
    for result in results:
        for bfr_id, count in result["fates"].items():
            total[int(bfr_id)].update(count)
    return dict(sorted(total.items()))


def egress_name(it, rule, bfr_id):
    return "+".join(router.name for router in it.owners(rule.options["sd"], bfr_id)) or "nobody"


def kinds_in(total):
    """The fates that occur, in a fixed order."""
    return [kind for kind in (*texts.CAUSES, IN_FLIGHT) if any(count[kind] for count in total.values())]


def columns(rows):
    """Rows as text, in columns as wide as needed; the first is left-aligned."""
    wide = [max(len(row[place]) for row in rows) for place in range(len(rows[0]))]
    return "".join(
        "  ".join(
            cell.ljust(size) if place == 0 else cell.rjust(size) for place, (cell, size) in enumerate(zip(row, wide))
        ).rstrip()
        + "\n"
        for row in rows
    )


def share(count):
    return f"{100 * count[GOT] / count['named']:.2f}%" if count["named"] else "-"


def egress_rows(it, rule, total):
    kinds = kinds_in(total)
    everything = sum(total.values(), collections.Counter())
    rows = [["egress", "BFR-id", "named", "delivered", "share", *(TITLES.get(kind, kind) for kind in kinds)]]
    for bfr_id, count in total.items():
        rows.append(
            [
                egress_name(it, rule, bfr_id),
                str(bfr_id),
                str(count["named"]),
                str(count[GOT]),
                share(count),
                *(str(count[kind]) for kind in kinds),
            ]
        )
    rows.append(
        ["all", "", str(everything["named"]), str(everything[GOT]), share(everything), *(str(everything[kind]) for kind in kinds)]
    )
    return rows


def failure_rows(rule, results, most=12):
    """The failures after which the least was delivered."""
    total = collections.defaultdict(collections.Counter)
    for number, result in results.items():
        for count in result["fates"].values():
            total[rule.failure_name(number)].update(count)
    ranked = sorted(total.items(), key=lambda item: (item[1][GOT] / max(1, item[1]["named"]), item[0]))
    return [["failing", "named", "delivered", "share"]] + [
        [name, str(count["named"]), str(count[GOT]), share(count)] for name, count in ranked[:most]
    ]


def table(it, rule, results, broken):
    out = f"{len(results)} of {rule.count()} runs, {len(broken)} broken\n\n"
    out += "".join(f"run {number} broke: {why}\n" for number, why in sorted(broken.items())[:20]) + ("\n" if broken else "")
    if not results:
        return out
    out += columns(egress_rows(it, rule, sums(results.values()))) + "\n" + columns(failure_rows(rule, results))
    bad = worst(results.values(), 5)
    if bad:
        rows = [["worst runs", "not delivered", "failing", "lose", "reorder", "repeat", "seed"]]
        for result in bad:
            _, *rates = rule.case(result["run"])
            rows.append([f"run {result['run']}", str(undelivered(result)), rule.failure_name(result["run"]), *map(str, rates)])
        out += "\n" + columns(rows)
    return out


# The plot


def text_at(x, y, text, anchor="start", size=12, colour="#1b2733"):
    return f'<text x="{x:.1f}" y="{y:.1f}" font-size="{size}" text-anchor="{anchor}" fill="{colour}">{html.escape(text)}</text>'


def bar(count, kinds, x, y, width):
    """One egress router: the shares of what became of its BFR-ids."""
    parts = []
    for kind in (GOT, *kinds):
        wide = width * count[kind] / count["named"]
        if wide:
            title = f"<title>{TITLES.get(kind, kind)}: {count[kind]} of {count['named']}</title>"
            parts.append(f'<rect x="{x:.2f}" y="{y}" width="{wide:.2f}" height="16" fill="{COLOURS[kind]}">{title}</rect>')
        x += wide
    return "".join(parts)


def legend(kinds, x, y):
    parts = []
    for kind in (GOT, *kinds):
        parts.append(
            f'<rect x="{x}" y="{y - 10}" width="11" height="11" fill="{COLOURS[kind]}"/>'
            + text_at(x + 16, y, TITLES.get(kind, kind))
        )
        x += 100
    return "".join(parts)


def plot(it, rule, results):
    """Bars by egress router, as an SVG."""
    total = {bfr_id: count for bfr_id, count in sums(results.values()).items() if count["named"]}
    kinds, left, width = kinds_in(total), 190, 620
    high = 84 + 24 * len(total)
    parts = [
        f'<svg xmlns="http://www.w3.org/2000/svg" width="920" height="{high}" viewBox="0 0 920 {high}" font-family="sans-serif">',
        f'<rect width="920" height="{high}" fill="white"/>',
    ]
    parts.append(
        text_at(left, 24, f"What became of the packets, by egress ({len(results)} runs)", size=15) + legend(kinds, left, 46)
    )
    for tick in range(0, 101, 25):
        x = left + width * tick / 100
        parts.append(
            f'<line x1="{x}" y1="56" x2="{x}" y2="{high - 22}" stroke="#d5dbe1"/>'
            + text_at(x, high - 8, f"{tick}%", "middle", 11, "#66727f")
        )
    for place, (bfr_id, count) in enumerate(total.items()):
        y = 60 + 24 * place
        parts.append(
            text_at(left - 8, y + 13, f"{egress_name(it, rule, bfr_id)} ({bfr_id})", "end") + bar(count, kinds, left, y, width)
        )
        parts.append(text_at(left + width + 8, y + 13, share(count)))
    return "\n".join(parts) + "\n</svg>\n"
