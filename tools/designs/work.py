"""Spreads the failures of a design over runs of the program, and these over cores and machines."""
import os
import socket
import sys
import tempfile

from common import spread
from common.trouble import Trouble, write_octets

from . import design_file
from .judge import Findings
from .share import Share

MOST_EVENTS = 15_000_000  # of a run, of which the program does 16,000,000
MANY_EVENTS = 900_000  # of its cases, so that its capture stays small


def find(design, program, given):
    """What all cases of a design have shown, and the share that knows the domain without a failure."""
    findings, alone = Findings(design), Share(design, program, given.limit, [])
    orders = alone.orders_of(0)
    path_links = most_links(orders)
    job = job_of(design, program, given, orders, path_links)
    first = Share(design, program, given.limit, orders, path_links)
    left = [number for number in range(1, len(design.cases))]
    findings.add({"cases": first.results([0]), "trees": [tree.as_lists() for tree in first.trees]})
    job["shares"] = shares_of(design, first, left, given)
    with tempfile.TemporaryDirectory() as folder:
        run_all(job, findings, given, folder)
    return findings, first


def most_links(orders):
    """The most links of a path in the domain without a failure."""
    most = 0
    for order in orders:
        many = {}
        for _, _, ids in order:
            for bfr_id in ids:
                many[bfr_id] = many.get(bfr_id, 0) + 1
        most = max([most, *many.values()])
    return most


def job_of(design, program, given, orders, path_links):
    """What a worker needs: the design as its files, since it is read there again."""
    with open(design.path, encoding="utf-8") as file:
        text = file.read()
    return {
        "tool": "design",
        "design": text,
        "domain": design.domain_text,
        "program": program,
        "limit": given.limit,
        "orders": orders,
        "path_links": path_links,
    }


def begin(job):
    """What does a share of a job by its number, for a worker."""
    with tempfile.TemporaryDirectory() as folder:
        write_octets(os.path.join(folder, "design.toml"), job["design"].encode())
        write_octets(os.path.join(folder, "domain.toml"), job["domain"].encode())
        design = design_file.read_design(os.path.join(folder, "design.toml"), os.path.join(folder, "domain.toml"))
    share = Share(design, job["program"], job["limit"], job["orders"], job["path_links"])
    return lambda number: result_of(share, number, job["shares"][number])


def result_of(share, number, cases):
    result = {"run": number, "host": socket.gethostname()}
    try:
        share.trees, share.known = [], {}
        found = share.results(cases)
        return {**result, "cases": found, "trees": [tree.as_lists() for tree in share.trees]}
    except (Trouble, OSError) as trouble:
        return {**result, "broken": str(trouble)}
    except (IndexError, KeyError, TypeError, ValueError):
        return {**result, "broken": "its report or its capture isn't of its schedule"}


# Shares


def events_of(design, share, number):
    """About how many events a case takes in a run."""
    case, bounds = design.cases[number], share.bounds_of(False)
    ends = 2 * sum(1 for _ in design.domain.links())
    copies = sum(len(order) for order in share.orders)
    settled = 2 * bounds.flooding(case) + 1 + bounds.delivery()
    return ends * settled + 2 * copies + 10 * ends * len(case.links)


def shares_of(design, share, cases, given):
    """The cases, in as many shares as there are cores at least, and no more in one than a run has events for."""
    ends = 2 * sum(1 for _ in design.domain.links())
    start = ends * (share.bounds_of(False).settling() + 2 * len(design.domain.routers))
    room = max(1, min(MANY_EVENTS, MOST_EVENTS - start))
    workers = spread.CORES * len(spread.hosts_of(given.hosts)) if given.hosts else given.jobs or os.cpu_count() or 1
    shares, sums = [[] for _ in range(max(1, min(workers, len(cases))))], None
    needed = [(number, events_of(design, share, number)) for number in cases]
    many = max(len(shares), -(-sum(events for _, events in needed) // room))
    shares, sums = [[] for _ in range(min(many, max(1, len(cases))))], [0] * many
    for number, events in sorted(needed, key=lambda it: -it[1]):
        place = sums.index(min(sums[: len(shares)]))
        shares[place].append(number)
        sums[place] += events
    return [sorted(it) for it in shares if it]


# All runs


def run_all(job, findings, given, folder):
    """Does all shares; one that broke is tried again, and after the last try it is Trouble."""
    left, broken, left_out = set(range(len(job["shares"]))), {}, set()
    for _ in range(given.tries):
        progress = spread.Progress(len(job["shares"]) - len(left), len(job["shares"]))
        for result in spread.results(job, sorted(left), given, left_out, folder):
            if "broken" in result:
                broken[result["run"]] = f"{result['broken']} (on {result['host']})"
            elif result["run"] in left:
                left.discard(result["run"])
                findings.add(result)
                progress.step(True)
        if progress.is_terminal:
            progress.end()
        if not left:
            return
        print(f"{len(left)} runs broke", file=sys.stderr)
    raise Trouble(f"a run broke: {broken.get(min(left), 'no result came')}")
