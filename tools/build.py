#!/usr/bin/env python3
"""Proves and builds the program where it isn't built yet, or a source has changed since: tools/build.py"""
import glob
import os
import subprocess
import sys
import time

from common.front import say

ROOT = os.path.dirname(os.path.dirname(os.path.realpath(__file__)))
CRATE = os.path.join(ROOT, "crates", "bier_domain")
PROGRAM = os.path.join(CRATE, "out", "bier_domain")
STAMP = os.path.join(CRATE, "out", ".built")
PARTS = ("src", "specs", "proofs")


def sources():
    yield os.path.join(ROOT, "crates.txt")
    for part in PARTS:
        for path in glob.iglob(os.path.join(ROOT, "crates", "*", part, "**"), recursive=True):
            if os.path.isfile(path):
                yield path


def is_stale():
    if not (os.access(PROGRAM, os.X_OK) and os.path.exists(STAMP)):
        return True
    built = os.path.getmtime(STAMP)
    return any(os.path.getmtime(it) > built for it in sources())


def build():
    if not any(os.access(os.path.join(it, "rt"), os.X_OK) for it in os.get_exec_path()):
        say("the Rattle kit's command rt isn't in PATH")
        sys.exit(127)
    say("proving and building the program, which takes a while the first time; examples/first-look shows a report sooner")
    started = time.time()
    status = subprocess.run([sys.executable, os.path.join(ROOT, "tools", "prove"), "bier_domain"]).returncode
    if status:
        sys.exit(status if status == 130 else 1)
    if not os.access(PROGRAM, os.X_OK):
        say("the program wasn't built; see crates/bier_domain/out/prove.log")
        sys.exit(1)
    with open(STAMP, "w", encoding="utf-8"):
        pass
    # What changed meanwhile is built the next time.
    os.utime(STAMP, (started, started))
    say(f"proved and built in {int(time.time() - started) // 60} min {int(time.time() - started) % 60} s")


def build_where_stale():
    if is_stale():
        build()


if __name__ == "__main__":
    build_where_stale()
