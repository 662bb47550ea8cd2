"""What each router of a replay holds, line by line, as show_router prints it."""
import json
import os
import subprocess

from . import places

SECONDS = 30  # for a replay that is too large for its page
MOST = 100  # routers whose tables a page holds


def program():
    return os.environ.get("SHOW_ROUTER") or places.SHOW_ROUTER


def followed(domain, schedule):
    """The tables of each router before the first line, and after each line those that changed: a list of `line`, `router` and
    `tables`; or None and why there is none. A schedule that is rejected ends at that line."""
    path = program()
    if not os.access(path, os.X_OK):
        return None, "show_router isn't built, so only LSDBs are shown, and without SRM and SSN"
    try:
        done = subprocess.run([path, "follow", domain, schedule], capture_output=True, text=True, timeout=SECONDS)
    except (OSError, subprocess.TimeoutExpired):
        return None, f"show_router took more than {SECONDS} seconds, so only LSDBs are shown"
    rows = [line for line in done.stdout.splitlines() if line.startswith("{")]
    if done.returncode not in (0, 4) or not rows:
        return None, "show_router doesn't read this schedule, so only LSDBs are shown"
    return [json.loads(row) for row in rows], None


def page_tables(it, domain, schedule):
    """The tables for a page: each text once, and for each line from 0 the routers with another text than before, as their index and
    the index of the text."""
    if len(it.routers) > MOST:
        return {"why": f"the domain has more than {MOST} routers, so only LSDBs are shown: ask show_router for a router's tables"}
    found, why = followed(domain, schedule)
    if found is None:
        return {"why": why}
    places_of = {it.name(place): place for place in range(len(it.routers))}
    texts, lines = {}, []
    for row in found:
        while len(lines) <= row["line"]:
            lines.append([])
        number = texts.setdefault(row["tables"], len(texts))
        lines[row["line"]].append([places_of[row["router"]], number])
    return {"texts": list(texts), "lines": lines}
