"""One router of a domain, and its hellos, on a live stream: frames, and events between them."""
import struct
from captures import Broken, Capture, records_of
from hellos import DOWN, INITIALIZING, UP, Handshake
from model import Replay, Router, walk_tlvs
from node import Node

HOLD = 30
KINDS = ("inject", "down", "up", "send", "tick", "restart")

class Lines(Replay):
    """Only reads lines."""
    def __init__(self, routers): self.names = {r["name"]: i for i, r in enumerate(routers)}

class HelloLines(Lines):
    more_forms = Handshake.more_forms

class Refusal(Exception): pass

def words_of(line):
    if len(line) > 16384: raise Refusal("line 5 LineLong")
    words = [] if line[:1] == b"#" else [word for word in line.split(b" ") if word]
    if not words: raise Refusal("event 1 Kind")
    return words

class Stream:
    """What both have in common: records, events, and the report."""
    def run(self, octets):
        try:
            for number, sec, usec, is_whole, frame in records_of(octets):
                self.records = number
                if is_whole and len(frame) >= 14 and frame[12:14] == b"\x88\xb5": self.event(number, sec, usec, frame)
                else: self.frame(number, sec, usec, is_whole, frame)
        except Broken as why:
            self.report.append(str(why)); return 8
        self.report.append(self.last_line()); return 0

    def event(self, number, sec, usec, frame):
        try:
            if frame[14:15] != b"\1": raise Refusal("frame 1 Version")
            try: ev = self.lines.parse(words_of(frame[15:]))
            except ValueError as why: raise Refusal(f"line {why}")
            if ev[0] not in self.kinds: raise Refusal("event 1 Kind")
            if ev[1] != self.place: raise Refusal("event 2 Router")
            self.do(number, sec, usec, frame, ev)
        except Refusal as why:
            self.refused(f"{number} refused {why}")

    def end(self, ev):
        """The interface that an event names."""
        link = next((i for i, e in enumerate(self.conf["ends"]) if e["peer_at"] == ev[2]), None)
        if link is None: raise Refusal("event 3 NoLink")
        return link

class Live(Stream, Node):
    """A router without a clock of its own."""
    kinds = KINDS

    def __init__(self, routers, place):
        super().__init__(routers[place])
        self.conf, self.place, self.lines = routers[place], place, Lines(routers)

    def move(self, number, sec): pass

    def frame(self, number, sec, usec, is_whole, frame): self.take(number, sec, usec, is_whole, frame)

    def refused(self, text): self.report.append(text); self.passed += 1

    def do(self, number, sec, usec, frame, ev):
        router, out = self.router, dict(sent=[], got=[], drops=[])
        if ev[0] in ("down", "up", "send"):
            link = self.end(ev)
            if router.up[link] == (ev[0] == "up"): raise Refusal("event 4 EndState")
            if ev[0] == "up": router.end_up(link)
            elif ev[0] == "down": router.end_down(link)
            else: out["sent"] = router.send(link)
        elif ev[0] == "tick": router.tick()
        elif ev[0] == "restart": router.start()
        else:
            why = router.edge_fault(*ev[2:5])
            if why: raise Refusal("edge " + " ".join(why.split(" ")[:2]))
            out = router.inject(*ev[2:])
        self.used += 1
        self.tell(number, sec, usec, out)

    def tell(self, number, sec, usec, out):
        self.write(sec, usec, out["sent"])
        for g in out["got"]: self.report.append(f"{number} got {g['sd']} {g['id']} {g['bfir']} {g['payload'].hex() or '-'}"); self.got += 1
        for cause, dropped in out["drops"]:
            ids = [k for k in dropped[1] if k <= 65535] if dropped else []
            self.report.append(f"{number} drop {cause} {','.join(map(str, ids)) or '-'}"); self.dropped += 1

    def last_line(self):
        return f"done records {self.records} used {self.used} passed {self.passed} got {self.got} dropped {self.dropped} sent {self.sent}"

class Adjacency:
    def __init__(self): self.works, self.state, self.circuit, self.hold = True, DOWN, 0, 0

def hello_in(frame):
    """A point-to-point hello of a frame: its source, holding time, circuit, state and the neighbor that it lists."""
    size = int.from_bytes(frame[12:14], "big")
    if len(frame) < 14 or size > 1500 or size > len(frame) - 14 or frame[14:17] != b"\xfe\xfe\x03" or size < 3: return None
    b = frame[17:14 + size]
    if len(b) < 20 or b[0] != 0x83 or b[1] != 20 or b[2] != 1 or b[5] != 1 or b[3] not in (0, 6) or b[4] & 31 != 17: return None
    n = int.from_bytes(b[17:19], "big")
    if not 20 <= n <= len(b): return None
    tlvs, ok = walk_tlvs(b[20:n])
    way = next((v for c, v in tlvs if c == 240), None)
    if not ok or way is None or len(way) not in (5, 15) or way[0] > 2: return None
    named = (way[5:11], way[11:15]) if len(way) == 15 else None
    return b[9:15], int.from_bytes(b[15:17], "big"), int.from_bytes(way[1:5], "big"), way[0], named

class LiveHellos(Stream):
    """The adjacencies of a router."""
    kinds = ("hello", "break", "mend", "tick")

    def __init__(self, routers, place):
        self.routers, self.conf, self.place, self.lines = routers, routers[place], place, HelloLines(routers)
        self.ends = [Adjacency() for _ in self.conf["ends"]]
        self.cap, self.report, self.records = Capture(), [], 0

    def refused(self, text): self.report.append(text)

    def changed(self, link, was, sec, usec):
        """Lets the router know of an adjacency that came up, or was up and no longer is."""
        is_up = self.ends[link].state == UP
        if is_up != was:
            peer = self.routers[self.conf["ends"][link]["peer_at"]]["name"]
            line = f"{'up' if is_up else 'down'} {self.conf['name']} {peer}".encode()
            self.cap.add(0, sec, usec, bytes(12) + b"\x88\xb5\x01" + line)

    def frame(self, number, sec, usec, is_whole, frame):
        if not is_whole or not 12 <= len(frame) <= 65000: return
        link = next((i for i, e in enumerate(self.conf["ends"]) if e["peer_mac"] == frame[6:12]), None)
        hello = None if link is None else hello_in(frame)
        if hello is None or not self.ends[link].works: return
        source, hold, circuit, state, named = hello
        end, own = self.ends[link], (self.conf["system"], struct.pack(">I", link + 1))
        if source != self.conf["ends"][link]["peer"] or named not in (None, own): return
        was, seen = end.state == UP, DOWN if named is None else state
        if seen == UP and end.state == DOWN: return
        end.state = INITIALIZING if seen == DOWN else UP
        end.circuit, end.hold = circuit, hold
        self.changed(link, was, sec, usec)

    def do(self, number, sec, usec, frame, ev):
        for link in range(len(self.ends)) if ev[0] == "tick" else [self.end(ev)]:
            end = self.ends[link]
            was = end.state == UP
            if ev[0] != "tick" and end.works == (ev[0] == "mend"): raise Refusal("event 4 EndState")
            if ev[0] == "hello": self.cap.add(0, sec, usec, self.hello(link, frame[8:12]))
            elif ev[0] == "tick":
                end.hold -= end.hold > 0
                if end.hold == 0: end.state = DOWN
            else: end.works, end.state = ev[0] == "mend", DOWN
            self.changed(link, was, sec, usec)

    def hello(self, link, address):
        end, it = self.ends[link], self.conf["ends"][link]
        named = b"" if end.state == DOWN else it["peer"] + struct.pack(">I", end.circuit)
        area = self.conf["area"]
        tlvs = bytes([1, len(area) + 1, len(area)]) + area + bytes([129, 1, 0xCC, 240, 5 + len(named), end.state]) + struct.pack(">I", link + 1) + named
        if any(address): tlvs += bytes([132, 4]) + address
        body = bytes([self.conf["level"]]) + self.conf["system"] + struct.pack(">HHB", HOLD, 20 + len(tlvs), (link + 1) % 256) + tlvs
        pdu = bytes([0x83, 20, 1, 0, 17, 1, 0, 0]) + body
        return bytes.fromhex("09002b000005") + it["own_mac"] + struct.pack(">H", len(pdu) + 3) + b"\xfe\xfe\x03" + pdu

    def last_line(self): return f"done records {self.records}"
