"""A domain whose interfaces come up by a three-way handshake of point-to-point hellos (RFC 5303)."""
import struct
from model import Refused, Replay, walk_tlvs

HOLD, MOST_EVENTS, MOST_HELLOS = 30, 16000000, 100000
UP, INITIALIZING, DOWN = 0, 1, 2

class End:
    """An adjacency: its state, and what it keeps of its neighbor."""
    def __init__(self): self.works = True; self.clear()

    def clear(self): self.state, self.circuit, self.hold = DOWN, None, 0

class Handshake(Replay):
    def __init__(self, routers):
        super().__init__(routers)
        self.adjacencies = {(a, e["peer_at"]): End() for a, r in enumerate(routers) for e in r["ends"]}
        self.hellos = {way: [] for way in self.adjacencies}
        self.done = 0
        for a, r in enumerate(routers):
            for e in r["ends"]: self.step(("down", a, e["peer_at"]), 0)

    def more_forms(self, router, num, bsl, ids):
        number = lambda s: num(s, 0, 0xFFFFFFFF)
        return {b"up": None, b"down": None, b"hello": [router] * 2, b"greet": [router, router, number], b"forget": [router, router, number],
                b"break": [router] * 2, b"mend": [router] * 2}

    def do(self, ev, n):
        if ev[0] in ("hello", "greet", "forget", "break", "mend"): self.hello_event(ev, n)
        elif ev[0] == "tick": self.step(ev, n); self.hello_event(ev, n)
        elif ev[0] == "restart": self.hello_event(ev, n); self.step(ev, n)
        else: super().do(ev, n)

    def settle(self, rounds, n):
        for _ in range(rounds):
            for way, end in self.adjacencies.items():
                if end.works: self.hello_event(("hello", *way), n)
            for way in self.adjacencies:
                for _ in range(len(self.hellos[way])): self.hello_event(("greet", *way, 0), n)
            super().settle(1, n)

    def changed(self, way, end, was, n):
        """Tells the interface of a change of its adjacency to Up or from Up."""
        if (end.state == UP) == was: return
        at = len(self.report)
        self.step(("up" if end.state == UP else "down", *way), n)
        names = [self.conf[x]["name"] for x in way]
        self.report.insert(at, f"{n} {'up' if end.state == UP else 'down'} {names[0]} {names[1]}")

    def hello_event(self, ev, n):
        if self.done >= MOST_EVENTS: raise Refused("1 Events")
        if ev[0] in ("tick", "restart"): ways = [w for w in self.adjacencies if w[0] == ev[1]]
        else:
            way = ev[1], ev[2]
            if way not in self.adjacencies: raise Refused("2 NoLink")
            end = self.adjacencies[way]
            if ev[0] in ("hello", "break") and not end.works or ev[0] == "mend" and end.works: raise Refused("3 EndState")
            if ev[0] == "hello" and sum(map(len, self.hellos.values())) >= MOST_HELLOS: raise Refused("4 InFlight")
            if ev[0] in ("greet", "forget") and ev[3] >= len(self.hellos[way]): raise Refused(f"5 NoFrame {ev[3]} {len(self.hellos[way])}")
        self.done += 1
        if ev[0] == "hello":
            hello = self.hello(*way)
            self.hellos[way].append(hello); self.cap.add(self.interface(way[0], self.end(*way)), n, 0, hello)
        elif ev[0] == "forget": self.hellos[way].pop(ev[3])
        elif ev[0] == "greet": self.greet(way, self.hellos[way].pop(ev[3]), n)
        elif ev[0] == "mend": end.works = True
        else:
            for way in ways if ev[0] != "break" else [way]:
                end = self.adjacencies[way]; was = end.state == UP
                if ev[0] == "tick":
                    end.hold -= end.hold > 0
                    if end.state != DOWN and end.hold == 0: end.clear()
                else: end.clear(); end.works = ev[0] != "break" and end.works
                self.changed(way, end, was, n)

    def hello(self, a, b):
        """The frame of a hello that a router sends now."""
        r, end, link = self.conf[a], self.adjacencies[a, b], self.end(a, b)
        named = b"" if end.state == DOWN else r["ends"][link]["peer"] + struct.pack(">I", end.circuit)
        tlvs = bytes([1, len(r["area"]) + 1, len(r["area"])]) + r["area"] + bytes([129, 1, 0xCC, 240, 5 + len(named), end.state]) + struct.pack(">I", link + 1) + named
        pdu = bytes([0x83, 20, 1, 0, 17, 1, 0, 0, r["level"]]) + r["system"] + struct.pack(">HHB", HOLD, 20 + len(tlvs), (link + 1) & 255) + tlvs
        return self.routers[a].isis(link, pdu)

    def greet(self, way, frame, n):
        a, b = way
        end, link = self.adjacencies[b, a], self.end(b, a)
        pdu = frame[17:]
        value = next(v for code, v in walk_tlvs(pdu[20:])[0] if code == 240)
        state, circuit = value[0], struct.unpack(">I", value[1:5])[0]
        if not end.works: return
        if len(value) == 15:
            if value[5:11] != self.conf[b]["system"] or struct.unpack(">I", value[11:])[0] != link + 1: return
        else: state = DOWN
        was = end.state == UP
        if state == UP and end.state == DOWN: return
        end.state = INITIALIZING if state == DOWN else UP
        end.circuit, end.hold = circuit, struct.unpack(">H", pdu[15:17])[0]
        self.changed((b, a), end, was, n)
