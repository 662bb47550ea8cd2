"""One router of a domain on the records of a capture."""
from captures import Broken, Capture, records_of
from model import Router

MOST_GAP = 65535

class Node:
    """A router and the clock that the records of a capture set."""
    def __init__(self, conf):
        self.router, self.clock, self.ticks = Router(conf), None, 0
        self.used = self.passed = self.got = self.dropped = self.sent = self.records = 0
        self.cap, self.report = Capture(), []

    def write(self, sec, usec, sent):
        for _, octets in sent:
            self.cap.add(0, sec, usec, octets); self.sent += 1

    def tick(self):
        self.router.tick(); self.ticks += 1; self.clock += 1
        if self.ticks % 5 == 0:
            for link, is_up in enumerate(self.router.up):
                if is_up: self.write(self.clock, 0, self.router.send(link))

    def move(self, number, sec):
        if self.clock is None: self.clock = sec
        if sec - self.clock > MOST_GAP: raise Broken(number, f"7 Gap {self.clock} {sec}")
        while self.clock < sec: self.tick()

    def link_of(self, is_whole, frame):
        """The interface whose neighbor sent a frame; None where the record is passed over."""
        if not is_whole or not 12 <= len(frame) <= 65000: return None
        return next((i for i, e in enumerate(self.router.conf["ends"]) if e["peer_mac"] == frame[6:12]), None)

    def take(self, number, sec, usec, is_whole, frame):
        self.move(number, sec)
        self.records = number
        link = self.link_of(is_whole, frame)
        out = self.router.frame(link, frame) if link is not None else None
        if out is None or out["passed"]: self.passed += 1; return
        self.used += 1
        self.write(sec, usec, out["sent"])
        for g in out["got"]: self.report.append(f"{number} got {g['sd']} {g['id']} {g['bfir']} {g['payload'].hex() or '-'}"); self.got += 1
        for cause, dropped in out["drops"]:
            ids = [k for k in dropped[1] if k <= 65535] if dropped else []
            self.report.append(f"{number} drop {cause} {','.join(map(str, ids)) or '-'}"); self.dropped += 1

    def run(self, octets):
        try:
            for record in records_of(octets): self.take(*record)
        except Broken as why:
            self.report.append(str(why)); return 8
        self.report.append(f"done records {self.records} used {self.used} passed {self.passed} got {self.got} dropped {self.dropped} sent {self.sent}")
        return 0
