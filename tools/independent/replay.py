#!/usr/bin/env python3
"""A second implementation of the program's commands on domains and captures, written from the rules only, to compare with it.

tools/independent/replay.py replay CONF SCHEDULE FRAMES        the arguments, report, capture and status of the program's `replay`
tools/independent/replay.py replay-ng CONF SCHEDULE FRAMES     those of its `replay-ng`, and so of each command below
tools/independent/replay.py check CONF SCHEDULE FRAMES
tools/independent/replay.py handshake CONF SCHEDULE FRAMES
tools/independent/replay.py node CONF ROUTER CAPTURE FRAMES
tools/independent/replay.py topo CAPTURE LEVEL MT FROM
tools/independent/replay.py live CONF ROUTER STREAM FRAMES         those of `live_router`, and of `live_router hello`
tools/independent/replay.py live-hello CONF ROUTER STREAM FRAMES
"""
import os, sys
sys.path.insert(0, os.path.dirname(os.path.abspath(__file__)))
from captures import CaptureNg
from hellos import Handshake
from live import Live, LiveHellos
from model import ConfFault, Refused, Replay, fault, read_domain
from node import Node
from quiet import Check
from topo import topo_of

class ReplayNg(Replay):
    def __init__(self, routers):
        super().__init__(routers)
        self.cap = CaptureNg(sum(len(r["ends"]) for r in routers))

USAGE = ("usage: replay.py replay|replay-ng|check|handshake CONF SCHEDULE FRAMES | node CONF ROUTER CAPTURE FRAMES"
         " | topo CAPTURE LEVEL MT FROM | live|live-hello CONF ROUTER STREAM FRAMES")

def read(path):
    try:
        with open(path, "rb") as file: return file.read()
    except OSError as error:
        sys.exit(f"replay.py: {path}: {error.strerror}")

STREAMS = {"live": Live, "live-hello": LiveHellos}
SCHEDULES = {"replay": Replay, "replay-ng": ReplayNg, "check": Check, "handshake": Handshake}

def begun(words):
    """The run that the arguments ask for."""
    routers = read_domain(read(words[1]))
    if words[0] in SCHEDULES: return SCHEDULES[words[0]](routers)
    place = next((i for i, r in enumerate(routers) if r["name"] == words[2]), None)
    if place is None: fault(6, "Reference", "words[2]")
    return Node(routers[place]) if words[0] == "node" else STREAMS[words[0]](routers, place)

class Output:
    """What a run has made, written out bit by bit."""
    def __init__(self, run, path):
        self.run, self.file, self.lines, self.octets = run, open(path, "wb", buffering=0), 0, 0

    def write(self):
        self.file.write(self.run.cap[self.octets:]); self.octets = len(self.run.cap)
        sys.stdout.write("".join(line + "\n" for line in self.run.report[self.lines:])); self.lines = len(self.run.report)
        sys.stdout.flush()

    def before_each(self, lines):
        """The lines, before each of which all is written: from a pipe they come one by one, and each is answered at once."""
        for line in lines:
            yield line
            self.write()

def topo(path, level, mt, start):
    run = topo_of(level, mt, start)
    if run is None: print(USAGE); return 2
    status = run.run(read(path))
    print("\n".join(run.report))
    return status

def main():
    words = sys.argv[1:]
    if words in (["--help"], ["-h"]): print(__doc__.strip()); return 0
    if not words or {"node": 5, "topo": 5, **dict.fromkeys(STREAMS, 5), **dict.fromkeys(SCHEDULES, 4)}.get(words[0]) != len(words): print(USAGE); return 2
    if words[0] == "topo": return topo(*words[1:])
    try:
        run = begun(words)
    except ConfFault as why:
        print(f"refused conf {why}"); return 3
    output = Output(run, words[-1])
    if isinstance(run, Replay):
        try:
            with open(words[2], "rb") as lines: status = run.run(output.before_each(lines))
        except OSError as error:
            sys.exit(f"replay.py: {words[2]}: {error.strerror}")
    else: status = run.run(read(words[3]))
    output.write()
    return status

if __name__ == "__main__":
    sys.exit(main())
