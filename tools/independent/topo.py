"""One topology of RFC 5120 as the LSPs of a capture give it."""
import heapq, re
from captures import Broken, records_of
from model import age, nodes_of, read_pdu, walk_tlvs

MOST_ENTRIES = 16384

def part_of(tlv, code):
    """The topology and the entries of a TLV 222 or 235; None for any other."""
    if tlv[0] != code or len(tlv[1]) < 2: return None
    return int.from_bytes(tlv[1][:2], "big") & 0xFFF, tlv[1][2:]

def member(value, mt):
    """The overload bit that a TLV 229 has for a topology; None where it doesn't list it."""
    for i in range(0, len(value) - 1, 2):
        word = int.from_bytes(value[i:i + 2], "big")
        if word & 0xFFF == mt: return bool(word & 0x8000)

class Topo:
    def __init__(self, level, mt, start):
        self.level, self.mt, self.start = level, mt, start
        self.entries, self.report, self.cap, self.records = {}, [], b"", 0

    def take(self, number, frame):
        self.records = number
        if frame is None or len(frame) < 17: return
        size = int.from_bytes(frame[12:14], "big")
        if not 3 <= size <= min(1500, len(frame) - 14) or frame[14:17] != b"\xfe\xfe\x03": return
        kind, h = read_pdu(self.level, bytes(frame[17:14 + size]))
        if kind != "lsp" or h["seq"] == 0 or h["id"][:6] == bytes(6): return
        how = age(self.entries.get(h["id"]), h)
        if how not in ("Unknown", "Newer"): return
        if how == "Unknown" and len(self.entries) >= MOST_ENTRIES: raise Broken(number, "9 Full")
        self.entries[h["id"]] = dict(h, content=h["content"] if h["life"] else b"")

    def projected(self):
        """The entries as those of the topology: for topology 0 all."""
        if self.mt == 0: return self.entries
        live = {i: e for i, e in self.entries.items() if e["life"] > 0 and i[6] == 0}
        listed = {}
        for i in sorted(live):
            found = [m for code, v in walk_tlvs(live[i]["content"])[0] if code == 229 for m in [member(v, self.mt)] if m is not None]
            if found:
                listed.setdefault(i[:6], False)
                if i[7] == 0: listed[i[:6]] = found[0]
        out = {}
        for i, e in live.items():
            if i[:6] in listed:
                content = b""
                for tlv in walk_tlvs(e["content"])[0]:
                    for code, plain in ((222, 22), (235, 135)):
                        part = part_of(tlv, code)
                        if part and part[0] == self.mt: content += bytes([plain, len(part[1])]) + part[1]
                out[i] = dict(e, content=content, flags=4 if listed[i[:6]] else 0)
        return out

    def costs(self, nodes):
        """The cost from the start to each node; None where no path leads to it, or there is no such start."""
        start = next((i for i, n in enumerate(nodes) if n["system"] == self.start), None)
        best, todo = {}, [(0, start)] if start is not None else []
        while todo:
            cost, at = heapq.heappop(todo)
            if at in best: continue
            best[at] = cost
            if at != start and nodes[at]["overload"]: continue
            for to, metric in nodes[at]["edges"].items(): heapq.heappush(todo, (cost + metric, to))
        return [best.get(i) for i in range(len(nodes))]

    def end(self):
        text = lambda system: ".".join(system.hex()[k:k + 4] for k in (0, 4, 8))
        nodes = nodes_of({}, self.projected(), None)
        say = self.report.append
        for n in nodes: say(f"node {text(n['system'])} {'overload' if n['overload'] else 'transit'}")
        for n in nodes:
            for to, metric in sorted(n["edges"].items()): say(f"edge {text(n['system'])} {text(nodes[to]['system'])} {metric}")
        for n in nodes:
            for sd, own, prefix, _ in n["subs"]: say(f"bier {text(n['system'])} {sd} {own} {'.'.join(map(str, prefix))}")
        for n, cost in zip(nodes, self.costs(nodes)):
            if n["system"] != self.start: say(f"path {text(n['system'])} {'none' if cost is None else cost}")
        say(f"done records {self.records} lsps {len(self.entries)} nodes {len(nodes)}")

    def run(self, octets):
        try:
            for number, _, _, _, frame in records_of(octets): self.take(number, frame)
        except Broken as why:
            self.report.append(str(why)); return 8
        self.end()
        return 0

def topo_of(level, mt, start):
    """The run that those arguments ask for, or None where one isn't valid."""
    if level not in ("1", "2") or not re.fullmatch("0|[1-9][0-9]{0,3}", mt, re.A) or int(mt) > 4095: return None
    if not re.fullmatch(r"[0-9a-fA-F]{4}(\.[0-9a-fA-F]{4}){2}", start, re.A): return None
    return Topo(int(level), int(mt), bytes.fromhex(start.replace(".", "")))
