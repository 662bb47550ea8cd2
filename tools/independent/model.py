"""The domain file, one router, and a domain that runs a schedule, written from the rules only."""
import tomllib, struct, heapq, re, functools, operator
from captures import Capture

BSLS = {64: 1, 128: 2, 256: 3, 512: 4, 1024: 5, 2048: 6, 4096: 7}
LAST = 0xFFFFFFFF

class ConfFault(Exception):
    pass

class Routers(list):
    """The routers of a domain, with its links as pairs of their numbers."""
    links = ()

# ---------------------------------------------------------------- domain file

def fault(num, name, path):
    raise ConfFault(f"{num} {name} {path}")

def read_toml(data):
    """The document, by TOML 1.1. Python's parser implements 1.0, so inline tables over several lines are joined for it."""
    try:
        text = data.decode("utf-8-sig")  # without a byte order mark
        try: doc = tomllib.loads(text)
        except tomllib.TOMLDecodeError: doc = tomllib.loads(joined_tables(text))
        if are_small(doc): return doc
    except (UnicodeDecodeError, tomllib.TOMLDecodeError, RecursionError):
        pass
    fault(1, "Toml", "-")

def are_small(value):
    """Whether each integer has at most 64 bits with its sign, as TOML wants; Python reads larger ones."""
    if isinstance(value, dict): return all(map(are_small, value.values()))
    if isinstance(value, list): return all(map(are_small, value))
    return not isinstance(value, int) or -2**63 <= value < 2**63

# The strings of TOML, a comment, an end of line, and any other character.
TOKEN = re.compile(r'"""(?:[^\\]|\\.)*?"{3,5}|\'\'\'.*?\'{3,5}|"(?:[^"\\\n]|\\.)*"|\'[^\'\n]*\'|#[^\n]*|\r?\n|.', re.S)

def joined_tables(text):
    """Inline tables each in one line, without a comma after their last value."""
    out, depth = [], []
    for token in TOKEN.findall(text):
        if token in "{[": depth.append(token)
        elif token in "}]" and depth:
            if depth.pop() == "{":
                while out and out[-1].isspace(): out.pop()
                if out and out[-1] == ",": out.pop()
        elif "{" in depth and (token[0] == "#" or token in ("\n", "\r\n")): token = " "
        out.append(token)
    return "".join(out)

def read_domain(data):
    if len(data) > 8388608: fault(7, "Limit", "-")
    doc = read_toml(data)
    tops = ["level", "area", "subdomain", "row", "router", "bier", "labels", "link"]
    for k in sorted(doc, key=lambda s: s.encode()):
        if k not in tops: fault(2, "Field", k)
    isint = lambda v: isinstance(v, int) and not isinstance(v, bool)
    level = doc.get("level", 2)
    if not isint(level): fault(2, "Field", "level")
    if level not in (1, 2): fault(4, "Range", "level")
    area = doc.get("area", "490001")
    if not isinstance(area, str): fault(2, "Field", "area")
    if not re.fullmatch(r"([0-9a-fA-F]{2}){1,13}", area, re.A): fault(4, "Range", "area")
    limits = [("subdomain", 8), ("row", 2048), ("router", 1000), ("bier", 4000), ("labels", 16000), ("link", 8000)]
    arr = {}
    for name, lim in limits:
        v = doc.get(name, [])
        if not isinstance(v, list) or not all(isinstance(x, dict) for x in v): fault(2, "Field", name)
        if len(v) > lim: fault(7, "Limit", name)
        if name == "router" and not v: fault(7, "Limit", "router")
        arr[name] = v
    names = {}
    def tok(kind):
        def f(v, path):
            pass
        return f
    def rng(lo, hi):
        def f(v, path, ctx):
            if not isint(v): fault(2, "Field", path)
            if not lo <= v <= hi: fault(4, "Range", path)
            return v
        return f
    def strform(test):
        def f(v, path, ctx):
            if not isinstance(v, str): fault(2, "Field", path)
            if not test(v): fault(4, "Range", path)
            return v
        return f
    def bool_(v, path, ctx):
        if not isinstance(v, bool): fault(2, "Field", path)
        return v
    def bsl(v, path, ctx):
        if not isint(v): fault(2, "Field", path)
        if v not in BSLS: fault(4, "Range", path)
        return v
    is_name = lambda s: re.fullmatch(r"[A-Za-z][A-Za-z0-9_-]{0,31}", s, re.A)
    is_sys = lambda s: re.fullmatch(r"[0-9a-fA-F]{4}\.[0-9a-fA-F]{4}\.[0-9a-fA-F]{4}", s, re.A)
    def is_prefix(s):
        if not re.fullmatch(r"(0|[1-9][0-9]{0,2})(\.(0|[1-9][0-9]{0,2})){3}", s, re.A): return False
        p = [int(x) for x in s.split(".")]
        return 1 <= p[0] <= 223 and all(x <= 255 for x in p)
    def is_mac(s):
        return re.fullmatch(r"[0-9a-fA-F]{2}(:[0-9a-fA-F]{2}){5}", s, re.A) and int(s[:2], 16) % 2 == 0
    def known_router(v, path, ctx):
        if not isinstance(v, str): fault(2, "Field", path)
        if v not in names: fault(6, "Reference", path)
        return names[v]
    sds = {}
    def known_sd(v, path, ctx):
        v = rng(0, 255)(v, path, ctx)
        if v not in sds: fault(6, "Reference", path)
        return v
    def kind(v, path, ctx):
        if not isinstance(v, str): fault(2, "Field", path)
        if v not in ("mpls", "configured"): fault(4, "Range", path)
        return v
    keys = {
        "subdomain": [("sd", rng(0, 255), True), ("kind", kind, True)],
        "row": [("sd", known_sd, True), ("bsl", bsl, True), ("si", rng(0, 255), True), ("bift", rng(1, 1048575), True)],
        "router": [("name", strform(is_name), True), ("system", strform(is_sys), True), ("prefix", strform(is_prefix), True), ("overload", bool_, False)],
        "bier": [("router", known_router, True), ("sd", known_sd, True), ("id", rng(0, 65535), True)],
        "labels": [("router", known_router, True), ("sd", known_sd, True), ("bsl", bsl, True), ("max_si", rng(0, 255), True), ("label", rng(16, 1048575), True)],
        "link": [("a", known_router, True), ("b", known_router, True), ("metric_ab", rng(1, 16777214), True), ("metric_ba", rng(1, 16777214), True), ("mac_a", strform(is_mac), False), ("mac_b", strform(is_mac), False)],
    }
    def fields(name, i, e):
        allowed = [k for k, _, _ in keys[name]]
        for k in sorted(e, key=lambda s: s.encode()):
            if k not in allowed: fault(2, "Field", f"{name}[{i}].{k}")
        out = {}
        for k, f, must in keys[name]:
            if k not in e:
                if must: fault(2, "Field", f"{name}[{i}].{k}")
                out[k] = None
            else:
                out[k] = f(e[k], f"{name}[{i}].{k}", None)
        return out
    # names are needed before bier; but subdomain and row come first
    kinds, rows, routers = [], [], []
    for i, e in enumerate(arr["subdomain"]):
        x = fields("subdomain", i, e)
        if x["sd"] in sds: fault(3, "Duplicate", f"subdomain[{i}].sd")
        sds[x["sd"]] = x["kind"]; kinds.append((x["sd"], x["kind"]))
    trip, bifts = set(), set()
    for i, e in enumerate(arr["row"]):
        x = fields("row", i, e)
        if sds[x["sd"]] != "configured": fault(6, "Reference", f"row[{i}].sd")
        t = (x["sd"], x["bsl"], x["si"])
        if t in trip: fault(3, "Duplicate", f"row[{i}].si")
        if x["bift"] in bifts: fault(3, "Duplicate", f"row[{i}].bift")
        trip.add(t); bifts.add(x["bift"]); rows.append((t, x["bift"]))
    systems, prefixes = set(), set()
    for i, e in enumerate(arr["router"]):
        x = fields("router", i, e)
        system = bytes.fromhex(x["system"].replace(".", "")); prefix = bytes(int(p) for p in x["prefix"].split("."))
        if x["name"] in names: fault(3, "Duplicate", f"router[{i}].name")
        if system in systems: fault(3, "Duplicate", f"router[{i}].system")
        if prefix in prefixes: fault(3, "Duplicate", f"router[{i}].prefix")
        names[x["name"]] = i; systems.add(system); prefixes.add(prefix)
        routers.append(dict(name=x["name"], system=system, prefix=prefix, overload=bool(x["overload"]), subs=[], away=[], past=[], ends=[], level=level, area=bytes.fromhex(area), kinds=kinds, table=rows))
    for i, e in enumerate(arr["bier"]):
        x = fields("bier", i, e)
        r = routers[x["router"]]
        if any(s["sd"] == x["sd"] for s in r["subs"]): fault(3, "Duplicate", f"bier[{i}].sd")
        r["subs"].append(dict(sd=x["sd"], id=x["id"], ranges=[]))
    for i, e in enumerate(arr["labels"]):
        x = fields("labels", i, e)
        r = routers[x["router"]]
        sub = next((s for s in r["subs"] if s["sd"] == x["sd"]), None)
        if sub is None or sds[x["sd"]] != "mpls": fault(6, "Reference", f"labels[{i}].sd")
        if any(g[0] == x["bsl"] for g in sub["ranges"]): fault(3, "Duplicate", f"labels[{i}].bsl")
        lo, hi = x["label"], x["label"] + x["max_si"]
        if hi > 1048575 or any(lo <= g[2] + g[1] and g[2] <= hi for s in r["subs"] for g in s["ranges"]): fault(5, "Labels", f"labels[{i}].label")
        sub["ranges"].append((x["bsl"], x["max_si"], x["label"]))
    links = []
    for i, e in enumerate(arr["link"]):
        x = fields("link", i, e)
        a, b = x["a"], x["b"]
        if a == b: fault(6, "Reference", f"link[{i}].b")
        if (a, b) in links or (b, a) in links: fault(3, "Duplicate", f"link[{i}].b")
        default = lambda r, p: bytes([2, 0]) + struct.pack(">HH", r, p)
        ma = bytes.fromhex(x["mac_a"].replace(":", "")) if x["mac_a"] else default(a, b)
        mb = bytes.fromhex(x["mac_b"].replace(":", "")) if x["mac_b"] else default(b, a)
        # mac_b is a's peer's; mac_a first
        if any(en["peer_mac"] == ma for en in routers[b]["ends"]): fault(3, "Duplicate", f"link[{i}].mac_a")
        if any(en["peer_mac"] == mb for en in routers[a]["ends"]): fault(3, "Duplicate", f"link[{i}].mac_b")
        links.append((a, b))
        routers[a]["ends"].append(dict(peer=routers[b]["system"], peer_at=b, peer_mac=mb, own_mac=ma, metric=x["metric_ab"]))
        routers[b]["ends"].append(dict(peer=routers[a]["system"], peer_at=a, peer_mac=ma, own_mac=mb, metric=x["metric_ba"]))
    for i, r in enumerate(routers):
        if len(r["ends"]) > 64 or sum(7 + 6 * len(s["ranges"]) for s in r["subs"]) > 245: fault(7, "Limit", f"router[{i}]")
    domain = Routers(routers)
    domain.links = links
    return domain

# ---------------------------------------------------------------- PDUs

def checksum(b):
    """Whether the two sums are 0 modulo 255."""
    return sum(b) % 255 == 0 and sum(map(operator.mul, b, range(len(b), 0, -1))) % 255 == 0

def check_at(b, at):
    n = len(b)
    plain = sum(b) % 255
    heavy = sum(x * (n - i) for i, x in enumerate(b)) % 255
    for x in range(1, 256):
        y = (-plain - x) % 255 or 255
        if (heavy + x * (n - at) + y * (n - at - 1)) % 255 == 0:
            return x, y
    raise ValueError

def common(hlen, typ): return bytes([0x83, hlen, 1, 0, typ, 1, 0, 0])

TYPES = {1: (18, 24, 26), 2: (20, 25, 27)}
HEADS = (27, 33, 17)

def write_lsp(level, e):
    total = 27 + len(e["content"])
    return common(27, TYPES[level][0]) + struct.pack(">HH", total, e["life"]) + e["id"] + struct.pack(">IHB", e["seq"], e["sum"], e["flags"]) + e["content"]

def summ(e): return struct.pack(">H", e["life"]) + e["id"] + struct.pack(">IH", e["seq"], e["sum"])

def tlv9(rows):
    out = b""
    for i in range(0, len(rows), 15):
        part = b"".join(rows[i:i + 15]); out += bytes([9, len(part)]) + part
    return out

def write_csnp(level, sys_, start, last, rows):
    t = tlv9(rows)
    return common(33, TYPES[level][1]) + struct.pack(">H", 33 + len(t)) + sys_ + b"\0" + start + last + t

def write_psnp(level, sys_, rows):
    t = tlv9(rows)
    return common(17, TYPES[level][2]) + struct.pack(">H", 17 + len(t)) + sys_ + b"\0" + t

def own_content(r, up):
    out = bytes([1, len(r["area"]) + 1, len(r["area"])]) + r["area"] + bytes([129, 1, 0xCC]) + bytes([137, len(r["name"])]) + r["name"].encode()
    reach = [e["peer"] + b"\0" + struct.pack(">I", e["metric"])[1:] + b"\0" for e, u in zip(r["ends"], up) if u]
    for i in range(0, len(reach), 23):
        part = b"".join(reach[i:i + 23]); out += bytes([22, len(part)]) + part
    subs = b""
    for s in r["subs"]:
        kind = dict(r["kinds"])[s["sd"]]
        v = bytes([0, 0, s["sd"]]) + struct.pack(">H", s["id"])
        if kind == "mpls":
            for b, m, l in s["ranges"]:
                v += bytes([1, 4, m]) + struct.pack(">I", BSLS[b] << 20 | l)[1:]
        subs += bytes([32, len(v)]) + v
    pre = struct.pack(">I", 0) + bytes([0x60 if r["subs"] else 0x20]) + r["prefix"] + (bytes([len(subs)]) + subs if r["subs"] else b"")
    return out + bytes([135, len(pre)]) + pre

def own_lsp(r, up, seq):
    e = dict(id=r["system"] + b"\0\0", seq=seq, life=1200, hold=0, sum=0, flags=(4 if r["overload"] else 0) | (1 if r["level"] == 1 else 3), content=own_content(r, up))
    body = write_lsp(r["level"], e)[12:]
    x, y = check_at(body, 12)
    e["sum"] = x << 8 | y
    return e

def purge(i, seq): return dict(id=i, seq=seq, life=0, hold=60, sum=0, flags=0, content=b"")

def read_head(level, b):
    """The type of a PDU and its octets up to its length; "drop" and the cause, or None twice where it is passed over."""
    if len(b) < 8: return "drop", "pdu-1"
    if b[0] != 0x83: return "drop", "pdu-2"
    if b[2] != 1 or b[5] != 1: return "drop", "pdu-3"
    if b[3] not in (0, 6): return "drop", "pdu-4"
    typ = b[4] & 31
    if typ not in TYPES[level]: return None, None
    hl = HEADS[TYPES[level].index(typ)]
    if b[1] != hl: return "drop", "pdu-5"
    if len(b) < hl: return "drop", "pdu-6"
    n = int.from_bytes(b[8:10], "big")
    if n < hl or n > len(b): return "drop", "pdu-6"
    return typ, b[:n]

# An LSP is flooded over many links, so most PDUs are read several times.
@functools.lru_cache(1 << 16)
def read_pdu(level, b):
    """A PDU as "lsp" with its fields, "csnp" or "psnp" with its rows and bounds, or as read_head has it."""
    typ, b = read_head(level, b)
    if not isinstance(typ, int): return typ, b
    kind = TYPES[level].index(typ); hl = HEADS[kind]
    if kind == 0 and int.from_bytes(b[10:12], "big") > 0 and not checksum(b[12:]): return "drop", "pdu-7"
    tl, ok = walk_tlvs(b[hl:])
    if not ok or (kind > 0 and any(c == 9 and len(v) % 16 for c, v in tl)): return "drop", "pdu-8"
    if kind == 0:
        return "lsp", dict(life=int.from_bytes(b[10:12], "big"), id=b[12:20], seq=int.from_bytes(b[20:24], "big"), sum=int.from_bytes(b[24:26], "big"), flags=b[26], content=b[27:])
    rows = []
    for c, v in tl:
        if c == 9:
            for k in range(0, len(v), 16):
                x = v[k:k + 16]; rows.append(dict(life=int.from_bytes(x[:2], "big"), id=x[2:10], seq=int.from_bytes(x[10:14], "big"), sum=int.from_bytes(x[14:], "big")))
    return ("csnp" if kind == 1 else "psnp"), (rows, b[17:25], b[25:33])

def age(e, s):
    if e is None: return "Unknown"
    if s["seq"] != e["seq"]: return "Newer" if s["seq"] > e["seq"] else "Older"
    if s["seq"] == 0: return "Equal"
    dead, edead = s["life"] == 0, e["life"] == 0
    if dead and edead: return "Equal"
    if dead: return "Newer"
    if edead: return "Older"
    return "Equal" if s["sum"] == e["sum"] else "Confused"

def walk_tlvs(b):
    i, out = 0, []
    while i < len(b):
        if i + 2 > len(b) or i + 2 + b[i + 1] > len(b): return out, False
        out.append((b[i], b[i + 2:i + 2 + b[i + 1]])); i += 2 + b[i + 1]
    return out, True

# ---------------------------------------------------------------- one router

class View(list):
    """The nodes of a topology, and the costs to those that were asked for."""
    def __init__(self, nodes):
        super().__init__(nodes); self.dist = {}

def nodes_of(claims, entries, kinds):
    """The nodes of a topology: of the claims that are given, and of what live entries of other systems say. `kinds` are the
    sub-domains that count, or None for all."""
    for i, e in entries.items():
        if i[6:] == b"\0\0" and e["life"] > 0 and i[:6] not in claims:
            tl = []
            for j in sorted(entries):
                f = entries[j]
                if j[:6] == i[:6] and j[6] == 0 and f["life"] > 0: tl += walk_tlvs(f["content"])[0]
            links, subs = [], []
            for code, v in tl:
                if code == 22:
                    k = 0
                    while k < len(v):
                        if len(v) - k < 11 or len(v) - k < 11 + v[k + 10]: break
                        m = int.from_bytes(v[k + 7:k + 10], "big")
                        if v[k + 6] == 0 and m < 16777215: links.append((v[k:k + 6], max(m, 1)))
                        k += 11 + v[k + 10]
                if code == 135:
                    k = 0
                    while k < len(v):
                        w = v[k:]
                        if len(w) < 5: break
                        ctl = w[4]; ln = ctl & 63
                        if ln > 32: break
                        pl = (ln + 7) // 8; n = 5 + pl
                        if len(w) < n: break
                        st = b""
                        if ctl & 64:
                            if len(w) < n + 1 or len(w) < n + 1 + w[n]: break
                            st = w[n + 1:n + 1 + w[n]]; n += 1 + w[n]
                        if ln == 32:
                            for sc, sv in walk_tlvs(st)[0]:
                                if sc == 32:
                                    info = read_info(sv)
                                    if info: subs.append((info[0], info[1], w[5:9], info[2]))
                        k += n
            claims[i[:6]] = dict(overload=bool(e["flags"] & 4), links=links, subs=subs)
    order = sorted(claims)
    for s in order:
        c = claims[s]
        rs = [g for x in c["subs"] for g in x[3]]
        if any(rs[p][2] <= rs[q][2] + rs[q][1] and rs[q][2] <= rs[p][2] + rs[p][1] for p in range(len(rs)) for q in range(p)): c["subs"] = []
        c["subs"] = [x for x in c["subs"] if kinds is None or x[0] in kinds]
        seen, keep = set(), []
        for x in c["subs"]:
            if x[0] not in seen: seen.add(x[0]); keep.append(x)
        c["subs"] = keep
    nodes = []
    for s in order:
        c = claims[s]
        subs = [x for x in c["subs"] if not any(o != s and any(y[2] == x[2] for y in claims[o]["subs"]) for o in order)]
        edges = {}
        for at, o in enumerate(order):
            ms = [m for p, m in c["links"] if p == o]
            if ms and any(p == s for p, _ in claims[o]["links"]): edges[at] = min(ms)
        nodes.append(dict(system=s, overload=c["overload"], edges=edges, subs=subs))
    return nodes

def read_info(v):
    if len(v) < 5 or v[0] or v[1]: return None
    k, ranges, seen = 5, [], set()
    while k < len(v):
        if k + 2 > len(v) or k + 2 + v[k + 1] > len(v): return None
        t, x = v[k], v[k + 2:k + 2 + v[k + 1]]; k += 2 + len(x)
        if t != 1: continue
        if len(x) != 4: return None
        m, code, lab = x[0], x[1] >> 4, int.from_bytes(x[1:4], "big") & 0xFFFFF
        if 1 <= code <= 7:
            if code in seen: return None
            seen.add(code)
            if lab + m <= 1048575: ranges.append((32 << code, m, lab))
    return v[2], v[3] << 8 | v[4], ranges

class Router:
    def __init__(self, conf):
        self.conf, self.seen = conf, (None, None)
        self.up = [True] * len(conf["ends"])
        self.start()

    def start(self):
        # The SRM and SSN flags: by link, the LSP IDs that have one.
        self.srm, self.ssn = [set() for _ in self.up], [set() for _ in self.up]
        self.entries, self.spent = {}, False
        self.due = list(self.up)
        e = own_lsp(self.conf, self.up, 1)
        self.entries[e["id"]] = e
        self.mark(e["id"])

    def mark(self, i):
        self.forget(i)
        for ids, u in zip(self.srm, self.up):
            if u: ids.add(i)

    def own_id(self): return self.conf["system"] + b"\0\0"

    def reissue(self, s):
        if s == LAST:
            self.spent = True
            e = purge(self.own_id(), s)
        else:
            e = own_lsp(self.conf, self.up, s + 1)
        self.entries[e["id"]] = e
        self.mark(e["id"])

    def reissue_own(self):
        if not self.spent:
            e = self.entries.get(self.own_id())
            self.reissue(e["seq"] if e else 0)

    def forget(self, i):
        for ids in self.srm + self.ssn: ids.discard(i)

    def on_lsp(self, c, h, out):
        i = h["id"]
        if h["seq"] == 0: out["drops"].append(("sequence", None)); return
        e = self.entries.get(i); a = age(e, h)
        if i == self.own_id() and not self.spent and a in ("Newer", "Confused"): self.reissue(h["seq"]); return
        if i[:6] == self.conf["system"] and h["life"] > 0 and a in ("Unknown", "Newer", "Confused"):
            if a == "Unknown" and len(self.entries) >= 16384: out["drops"].append(("full", None)); return
            self.entries[i] = purge(i, h["seq"]); self.mark(i); return
        if a == "Unknown" and h["life"] == 0:
            out["sent"].append((c, self.isis(c, write_psnp(self.conf["level"], self.conf["system"], [struct.pack(">H", h["life"]) + i + struct.pack(">IH", h["seq"], h["sum"])])))); return
        if a == "Unknown" and len(self.entries) >= 16384: out["drops"].append(("full", None)); return
        if a in ("Unknown", "Newer"):
            self.entries[i] = purge(i, h["seq"]) if h["life"] == 0 else dict(id=i, seq=h["seq"], life=h["life"], hold=0, sum=h["sum"], flags=h["flags"], content=h["content"])
            self.forget(i)
            for l, u in enumerate(self.up):
                if u and l != c: self.srm[l].add(i)
            self.ssn[c].add(i)
        elif a == "Confused":
            self.entries[i] = purge(i, h["seq"]); self.mark(i)
        elif a == "Equal":
            self.srm[c].discard(i); self.ssn[c].add(i)
        else:
            self.srm[c].add(i); self.ssn[c].discard(i)

    def on_list(self, c, rows, out):
        re_ = None
        for s in rows:
            i = s["id"]; e = self.entries.get(i)
            if s["seq"] == 0:
                if e and e["seq"] > 0: self.srm[c].add(i); self.ssn[c].discard(i)
                continue
            a = age(e, s)
            if a == "Equal": self.srm[c].discard(i)
            elif a == "Older": self.srm[c].add(i); self.ssn[c].discard(i)
            elif a == "Newer": self.ssn[c].add(i); self.srm[c].discard(i)
            elif a == "Confused":
                if i == self.own_id() and not self.spent: re_ = s["seq"]
                else: self.entries[i] = purge(i, s["seq"]); self.mark(i)
            elif s["life"] and s["seq"] and s["sum"]:
                if len(self.entries) >= 16384: out["drops"].append(("full", None)); continue
                self.entries[i] = dict(id=i, seq=0, life=0, hold=60, sum=0, flags=0, content=b"")
                self.ssn[c].add(i); self.srm[c].discard(i)
        return re_

    def isis(self, link, pdu):
        e = self.conf["ends"][link]
        return bytes.fromhex("09002b000005") + e["own_mac"] + struct.pack(">H", 3 + len(pdu)) + b"\xfe\xfe\x03" + pdu

    def complete_lists(self):
        sent, start = [], b"\0" * 8
        known = [i for i in sorted(self.entries) if self.entries[i]["seq"] > 0]
        blocks = [known[k:k + 90] for k in range(0, len(known), 90)] or [[]]
        for k, blk in enumerate(blocks):
            last = b"\xff" * 8 if k == len(blocks) - 1 else blk[-1]
            sent.append(write_csnp(self.conf["level"], self.conf["system"], start, last, [summ(self.entries[i]) for i in blk]))
            if k < len(blocks) - 1: start = (int.from_bytes(last, "big") + 1).to_bytes(8, "big")
        return sent

    def send(self, link):
        sent = self.complete_lists() if self.due[link] else []
        for i in sorted(self.srm[link]): sent.append(write_lsp(self.conf["level"], self.entries[i]))
        asks = [summ(self.entries[i]) for i in sorted(self.ssn[link])]
        for k in range(0, len(asks), 90): sent.append(write_psnp(self.conf["level"], self.conf["system"], asks[k:k + 90]))
        self.due[link] = False
        self.ssn[link].clear()
        return [(link, self.isis(link, p)) for p in sent]

    def tick(self):
        for i in sorted(self.entries):
            e = self.entries[i]
            if e["life"] > 0:
                if e["life"] == 1: self.entries[i] = purge(i, e["seq"]); self.mark(i)
                else: self.entries[i] = dict(e, life=e["life"] - 1)
            elif e["hold"] <= 1: del self.entries[i]; self.forget(i)
            else: self.entries[i] = dict(e, hold=e["hold"] - 1)
        e = self.entries.get(self.own_id())
        if e and e["life"] == 300: self.reissue(e["seq"])

    def end_up(self, l):
        self.up[l] = True; self.due[l] = True
        for i, e in self.entries.items():
            if e["seq"] > 0: self.srm[l].add(i)
        self.reissue_own()

    def end_down(self, l):
        self.up[l] = False; self.due[l] = False
        self.srm[l].clear(); self.ssn[l].clear()
        self.reissue_own()

    # ---- labels and members that change
    def entry(self, sd):
        """The entry of a sub-domain, whether the router is in it or has left it."""
        return next((s for s in self.conf["subs"] + self.conf["away"] if s["sd"] == sd), None)

    def change_fault(self, ev):
        """Why a change of the router's labels or sub-domains is refused."""
        sub = self.entry(ev[2])
        if sub is None: return "8 NoSub"
        if ev[0] != "relabel": return "9 SubState" if (sub in self.conf["subs"]) == (ev[0] == "join") else None
        old = next((g for g in sub["ranges"] if g[0] == ev[3]), None)
        if old is None: return "8 NoSub"
        if ev[4] + old[1] > 1048575: return "10 LabelHigh"
        used = [g for s in self.conf["subs"] + self.conf["away"] for g in s["ranges"]] + [g for _, g in self.conf["past"]]
        both = [max(ev[4], g[2]) for g in used if ev[4] <= g[2] + g[1] and g[2] <= ev[4] + old[1]]
        if both: return f"11 LabelUsed {min(both)}"
        if len(self.conf["past"]) >= 1000: return "12 Relabels"

    def change(self, ev):
        conf, sub = self.conf, self.entry(ev[2])
        if ev[0] == "relabel":
            at = next(i for i, g in enumerate(sub["ranges"]) if g[0] == ev[3])
            old = sub["ranges"][at]
            sub["ranges"][at] = (old[0], old[1], ev[4]); conf["past"].append((ev[2], old))
        else:
            source, target = (conf["subs"], conf["away"]) if ev[0] == "leave" else (conf["away"], conf["subs"])
            source.remove(sub); target.append(sub)
        self.reissue_own()

    # ---- view
    def view(self):
        """The view of now; the last one where nothing that it rests on has changed."""
        rests_on = tuple(self.up), repr(self.conf["subs"]), tuple((i, e["life"] > 0, e["flags"], e["content"]) for i, e in self.entries.items())
        if self.seen[0] != rests_on: self.seen = rests_on, View(self.view_anew())
        return self.seen[1]

    def view_anew(self):
        conf = self.conf
        own = {conf["system"]: dict(overload=conf["overload"], links=[(e["peer"], e["metric"]) for e, u in zip(conf["ends"], self.up) if u],
            subs=[(s["sd"], s["id"], conf["prefix"], list(s["ranges"]) if dict(conf["kinds"])[s["sd"]] == "mpls" else []) for s in conf["subs"]])}
        return nodes_of(own, self.entries, dict(conf["kinds"]))

    # ---- routes
    def dist_to(self, V, d):
        if d not in V.dist: V.dist[d] = self.dist_anew(V, d)
        return V.dist[d]

    def dist_anew(self, V, d):
        D = {d: 0}; q = [(0, d)]; done = set()
        while q:
            x, v = heapq.heappop(q)
            if v in done: continue
            done.add(v)
            if v != d and V[v]["overload"]: continue
            for u in V[v]["edges"]:
                # An edge has both ends.
                y = x + V[u]["edges"][v]
                if u not in D or y < D[u]: D[u] = y; heapq.heappush(q, (y, u))
        return D

    def tight(self, V, D, u, d):
        return [v for v, m in sorted(V[u]["edges"].items()) if v in D and u in D and m + D[v] == D[u] and (v == d or not V[v]["overload"])]

    def covers(self, node, t):
        sub = next((s for s in node["subs"] if s[0] == t[0]), None)
        return self.bift(sub, t) is not None

    def bift(self, sub, t):
        if sub is None: return None
        k = dict(self.conf["kinds"]).get(t[0])
        if k == "mpls":
            g = next((g for g in sub[3] if g[0] == t[1]), None)
            return g[2] + t[2] if g and t[2] <= g[1] else None
        if k == "configured":
            return next((b for tt, b in self.conf["table"] if tt == t), None)
        return None

    def choice(self, V, u, t, cls, k):
        if k == 0 or k > 65535: return None
        own = [n for n, x in enumerate(V) if any(s[0] == t[0] and s[1] == k for s in x["subs"])]
        if len(own) != 1 or own[0] == u or not self.covers(V[own[0]], t): return None
        d = own[0]; D = self.dist_to(V, d); first, seen, todo = set(), set(), [u]
        while todo:
            y = todo.pop()
            for v in self.tight(V, D, y, d):
                if self.covers(V[v], t): first.add(v)
                elif v not in seen: seen.add(v); todo.append(v)
        first = sorted(first)
        if not first: return None
        x = first[cls % len(first)]
        du = self.dist_to(V, x).get(u)
        direct = x in V[u]["edges"] and V[u]["edges"][x] == du
        return x, direct

    def next_link(self, V, u, x):
        D = self.dist_to(V, x)
        if u == x or u not in D: return None
        s = self.tight(V, D, u, x)
        if not s: return None
        return next((i for i, e in enumerate(self.conf["ends"]) if e["peer"] == V[s[0]]["system"]), None)

    # ---- data
    def hop(self, t, kind, head, bits, payload, ttl, out):
        """head: the 12 octets of the header; bits: a set of positions."""
        V = self.view(); u = next(i for i, n in enumerate(V) if n["system"] == self.conf["system"])
        L = t[1]; ids = sorted(t[2] * L + p for p in bits)
        word1 = int.from_bytes(head[4:8], "big"); entropy = word1 & 0xFFFFF; cls = entropy % 16
        bfir = int.from_bytes(head[10:12], "big")
        own = next((s["id"] for s in self.conf["subs"] if s["sd"] == t[0] and s["id"]), None)
        if ttl == 0:
            if ids: out["drops"].append(("ttl", (t, ids)))
            return
        if own in ids: out["got"].append(dict(sd=t[0], id=own, bfir=bfir, payload=payload))
        rest = [k for k in ids if k != own]
        ch = {k: self.choice(V, u, t, cls, k) for k in rest}
        if ttl > 1:
            order = []
            for k in rest:
                if ch[k] and ch[k] not in order: order.append(ch[k])
            for c in order:
                x, direct = c
                grp = [k for k in rest if ch[k] == c]
                sub = next((s for s in V[x]["subs"] if s[0] == t[0]), None)
                b = self.bift(sub, t)
                w0 = int.from_bytes(head[:4], "big")
                w0 = (b << 12) | (w0 & 0xF00) | (ttl - 1)
                bs = 0
                for k in grp: bs |= 1 << (k - t[2] * L - 1)
                pk = struct.pack(">I", w0) + head[4:12] + bs.to_bytes(L // 8, "big") + payload
                typ = 0x8847 if kind == "mpls" else 0xAB37
                if direct:
                    link = next(i for i, e in enumerate(self.conf["ends"]) if e["peer"] == V[x]["system"]); e = self.conf["ends"][link]
                    out["sent"].append((link, e["peer_mac"] + e["own_mac"] + struct.pack(">H", typ) + pk))
                else:
                    link = self.next_link(V, u, x)
                    if link is None: out["drops"].append(("none", (t, grp))); continue
                    e = self.conf["ends"][link]
                    out["sent"].append((link, e["peer_mac"] + e["own_mac"] + b"\x08\x00" + tunnel(self.conf["prefix"], sub[2], 255, typ, pk)))
        else:
            g = [k for k in rest if ch[k]]
            if g: out["drops"].append(("ttl", (t, g)))
        n = [k for k in rest if not ch[k]]
        if n: out["drops"].append(("none", (t, n)))

    def means(self, kind, b):
        kinds = dict(self.conf["kinds"])
        if kind == "mpls":
            ranges = [(s["sd"], g) for s in self.conf["subs"] + self.conf["away"] for g in s["ranges"]] + self.conf["past"]
            for sd, g in ranges:
                if kinds.get(sd) == "mpls" and g[2] <= b <= g[2] + g[1]: return (sd, g[0], b - g[2])
        else:
            for t, x in self.conf["table"]:
                if x == b and self.entry(t[0]) is not None: return t
        return None

    def data(self, kind, b, out):
        drop = lambda c: out["drops"].append((c, None))
        if len(b) < 4: return drop("head-1")
        w0 = int.from_bytes(b[:4], "big")
        if kind == "mpls" and not w0 >> 8 & 1: return drop("label")
        t = self.means(kind, w0 >> 12)
        if t is None: return drop("label")
        L = t[1]
        if len(b) < 12 + L // 8: return drop("head-1")
        if kind == "mpls" and b[4] >> 4 != 5: return drop("head-2")
        if b[4] & 15: return drop("head-3")
        v = int.from_bytes(b[12:12 + L // 8], "big")
        self.hop(t, kind, b[:12], {p for p in range(1, L + 1) if v >> (p - 1) & 1}, b[12 + L // 8:], w0 & 255, out)

    def frame(self, link, b):
        out = dict(sent=[], got=[], drops=[], passed=False)
        drop = lambda c: out["drops"].append((c, None))
        if not self.up[link]: drop("link"); return out
        if len(b) < 14: drop("frame-1"); return out
        n = int.from_bytes(b[12:14], "big")
        if n <= 1500:
            if n > len(b) - 14: drop("frame-2"); return out
            if n >= 3 and b[14:17] == b"\xfe\xfe\x03": self.pdu(link, b[17:14 + n], out)
            else: out["passed"] = True
        elif n == 0x8847: self.data("mpls", b[14:], out)
        elif n == 0xAB37: self.data("configured", b[14:], out)
        elif n == 0x0800: self.ip(b[14:], out)
        else: out["passed"] = True
        return out

    def ip(self, b, out):
        drop = lambda c: out["drops"].append((c, None))
        if len(b) < 20: return drop("ip-1")
        if b[0] >> 4 != 4: return drop("ip-2")
        if b[0] & 15 != 5: return drop("ip-3")
        tot = int.from_bytes(b[2:4], "big")
        if tot < 20 or tot > len(b): return drop("ip-4")
        s = sum(int.from_bytes(b[i:i + 2], "big") for i in range(0, 20, 2))
        while s >> 16: s = (s & 0xFFFF) + (s >> 16)
        if s != 0xFFFF: return drop("ip-5")
        if int.from_bytes(b[6:8], "big") & 0x3FFF: return drop("ip-6")
        if b[9] != 47: return drop("ip-7")
        if tot < 24: return drop("ip-8")
        if b[20:22] != b"\0\0": return drop("ip-9")
        typ = int.from_bytes(b[22:24], "big")
        if typ not in (0x8847, 0xAB37): return drop("ip-10")
        if b[16:20] == self.conf["prefix"]: return self.data("mpls" if typ == 0x8847 else "configured", b[24:tot], out)
        if b[8] <= 1: return drop("outer")
        V = self.view(); u = next(i for i, n in enumerate(V) if n["system"] == self.conf["system"])
        x = next((i for i, n in enumerate(V) if i != u and any(s[2] == b[16:20] for s in n["subs"])), None)
        link = self.next_link(V, u, x) if x is not None else None
        if link is None: return drop("route")
        e = self.conf["ends"][link]
        h = bytearray(b[:tot]); h[8] -= 1; h[10:12] = b"\0\0"
        s = sum(int.from_bytes(h[i:i + 2], "big") for i in range(0, 20, 2))
        while s >> 16: s = (s & 0xFFFF) + (s >> 16)
        h[10:12] = struct.pack(">H", 0xFFFF - s)
        out["sent"].append((link, e["peer_mac"] + e["own_mac"] + b"\x08\x00" + bytes(h)))

    def pdu(self, link, b, out):
        typ, what = read_pdu(self.conf["level"], bytes(b))
        if typ is None: out["passed"] = True
        elif typ == "drop": out["drops"].append((what, None))
        elif typ == "lsp": self.on_lsp(link, what, out)
        else:
            rows, lo, hi = what
            re_ = self.on_list(link, rows, out)
            if typ == "csnp":
                listed = {s["id"] for s in rows}
                for i, e in self.entries.items():
                    if e["life"] > 0 and e["seq"] > 0 and lo <= i <= hi and i not in listed: self.srm[link].add(i)
            if re_ is not None: self.reissue(re_)

    def edge_fault(self, sd, L, ids):
        if not ids: return "1 NoEgress"
        if 0 in ids: return "2 IdZero"
        for k in ids:
            if (k - 1) // L > 255: return f"3 SiLarge {k}"
        sub = next((s for s in self.conf["subs"] if s["sd"] == sd), None)
        if sub is None or sub["id"] == 0: return "4 NotBfr"
        k = dict(self.conf["kinds"])[sd]
        if not (any(g[0] == L for g in sub["ranges"]) if k == "mpls" else any(t[0] == sd and t[1] == L for t, _ in self.conf["table"])): return "5 BslUnknown"

    def inject(self, sd, L, ids, ttl, entropy, payload):
        out = dict(sent=[], got=[], drops=[], passed=False)
        own = next(s["id"] for s in self.conf["subs"] if s["sd"] == sd)
        for si in sorted({(k - 1) // L for k in ids}):
            head = struct.pack(">I", 0x100 | 0) + struct.pack(">I", 5 << 28 | BSLS[L] << 20 | entropy) + struct.pack(">HH", 4, own)
            self.hop((sd, L, si), dict(self.conf["kinds"])[sd], head, {k - si * L for k in ids if (k - 1) // L == si}, payload, ttl + 1, out)
        return out

def tunnel(src, dst, ttl, typ, inner):
    h = bytearray(b"\x45\0" + struct.pack(">H", 24 + len(inner)) + b"\0\0\x40\0" + bytes([ttl, 47]) + b"\0\0" + src + dst)
    s = sum(int.from_bytes(h[i:i + 2], "big") for i in range(0, 20, 2))
    while s >> 16: s = (s & 0xFFFF) + (s >> 16)
    h[10:12] = struct.pack(">H", 0xFFFF - s)
    return bytes(h) + b"\0\0" + struct.pack(">H", typ) + inner

# ---------------------------------------------------------------- the world and the replay

class Refused(Exception):
    pass

class Replay:
    def __init__(self, routers):
        self.conf = routers; self.routers = [Router(r) for r in routers]
        self.q = {(a, e["peer_at"]): [] for a, r in enumerate(routers) for e in r["ends"]}
        self.events = self.injections = self.named = self.got = self.dropped = 0
        self.cap = Capture(); self.report = []
        self.names = {r["name"]: i for i, r in enumerate(routers)}

    def end(self, a, b): return next((i for i, e in enumerate(self.conf[a]["ends"]) if e["peer_at"] == b), None)
    def flight(self): return sum(len(x) for x in self.q.values())

    def ids_text(self, ids):
        ids = [k for k in ids if k <= 65535]
        return ",".join(map(str, ids)) or "-"

    def emit(self, a, line, sent, note=None):
        for link, b in sent:
            to = self.conf[a]["ends"][link]["peer_at"]
            n = None
            if note is not None:
                n = (note, self.set_of(b, to))
            self.q[a, to].append((b, n))
            self.cap.add(self.interface(a, link), line, 0, b)

    def interface(self, a, link): return sum(len(r["ends"]) for r in self.conf[:a]) + link

    def set_of(self, b, to):
        # the ids of a data frame, by the label of its target
        n = int.from_bytes(b[12:14], "big")
        at = 14
        if n == 0x800:
            dst = b[30:34]; to = next(i for i, r in enumerate(self.conf) if r["prefix"] == dst)
            n = int.from_bytes(b[36:38], "big"); at = 38
        w0 = int.from_bytes(b[at:at + 4], "big")
        t = self.routers[to].means("mpls" if n == 0x8847 else "configured", w0 >> 12)
        v = int.from_bytes(b[at + 12:at + 12 + t[1] // 8], "big")
        return [t[2] * t[1] + p for p in range(1, t[1] + 1) if v >> (p - 1) & 1]

    def effects(self, a, line, out, note):
        self.emit(a, line, out["sent"], note)
        for g in out["got"]:
            self.report.append(f"{line} got {self.conf[a]['name']} {note} {g['id']} {g['payload'].hex() or '-'}"); self.got += 1
        for c, s in out["drops"]:
            if s: ids = s[1]
            elif note is not None: ids = out["whole"]
            else: ids = None
            if note is None: self.report.append(f"{line} drop {self.conf[a]['name']} - {c} -")
            else:
                self.report.append(f"{line} drop {self.conf[a]['name']} {note} {c} {self.ids_text(ids)}"); self.dropped += len([k for k in ids if k <= 65535])

    def step(self, ev, line):
        k = ev[0]
        if self.events >= 16000000: raise Refused("1 Events")
        if k in ("take", "lose", "again", "down", "up", "send"):
            a, b = ev[1], ev[2]; l = self.end(a, b)
            if l is None: raise Refused("2 NoLink")
            r = self.routers[a]
            if k == "up" and r.up[l] or k in ("down", "send") and not r.up[l]: raise Refused("3 EndState")
        if k in ("inject", "take", "send", "again") and self.flight() >= 500000: raise Refused("4 InFlight")
        if k in ("take", "lose", "again"):
            q = self.q[a, b]; i = ev[3]
            if i >= len(q): raise Refused(f"5 NoFrame {i} {len(q)}")
            if k == "again" and q[i][1] is not None: raise Refused("6 NotControl")
        if k == "inject":
            _, a, sd, L, ids, ttl, ent, pay = ev
            f = self.routers[a].edge_fault(sd, L, ids)
            if f: raise Refused("7 Edge " + f)
        if k in ("relabel", "leave", "join"):
            f = self.routers[ev[1]].change_fault(ev)
            if f: raise Refused(f)
        self.events += 1
        if k == "inject":
            self.injections += 1; self.named += len(set(ids))
            self.effects(a, line, self.routers[a].inject(sd, L, ids, ttl, ent, pay), self.injections)
        elif k == "tick": self.routers[ev[1]].tick()
        elif k in ("relabel", "leave", "join"): self.routers[ev[1]].change(ev)
        elif k == "restart": self.routers[ev[1]].start()
        elif k == "down": self.routers[a].end_down(l)
        elif k == "up": self.routers[a].end_up(l)
        elif k == "send": self.emit(a, line, self.routers[a].send(l))
        elif k == "again": q.append(q[i])
        elif k == "lose":
            f, n = q.pop(i)
            self.effects(b, line, dict(sent=[], got=[], drops=[("lost", None)], whole=n and n[1]), n and n[0])
        elif k == "take":
            f, n = q.pop(i)
            out = self.routers[b].frame(self.end(b, a), f)
            out["whole"] = n and n[1]
            self.effects(b, line, out, n and n[0])

    def settle(self, n, line):
        for _ in range(n):
            for a, r in enumerate(self.conf):
                for i, e in enumerate(r["ends"]):
                    if self.routers[a].up[i]: self.step(("send", a, e["peer_at"]), line)
            for a, r in enumerate(self.conf):
                for i, e in enumerate(r["ends"]):
                    for _ in range(len(self.q[a, e["peer_at"]])): self.step(("take", a, e["peer_at"], 0), line)

    def parse(self, w):
        """The event of a line's words, or a ValueError with number and name."""
        def router(s):
            if s not in self.names: raise ValueError("3 Name")
            return self.names[s]
        def num(s, lo, hi):
            if not re.fullmatch(rb"[0-9]{1,10}", s) or not lo <= int(s) <= hi: raise ValueError("2 Number")
            return int(s)
        def bsl(s):
            v = num(s, 0, 4096)
            if v not in BSLS: raise ValueError("2 Number")
            return v
        def ids(s):
            if s == b"-": return []
            return [num(x, 0, 65535) for x in s.split(b",")]
        def pay(s):
            if s == b"-": return b""
            if not re.fullmatch(rb"([0-9a-fA-F]{2}){1,2000}", s): raise ValueError("4 Hex")
            return bytes.fromhex(s.decode())
        R = lambda s: router(s.decode("latin1"))
        forms = {b"inject": [R, lambda s: num(s, 0, 255), bsl, ids, lambda s: num(s, 1, 255), lambda s: num(s, 0, 1048575), pay],
                 b"take": [R, R, lambda s: num(s, 0, LAST)], b"lose": [R, R, lambda s: num(s, 0, LAST)], b"again": [R, R, lambda s: num(s, 0, LAST)],
                 b"down": [R, R], b"up": [R, R], b"send": [R, R], b"tick": [R], b"restart": [R], b"settle": [lambda s: num(s, 0, 1000)],
                 b"relabel": [R, lambda s: num(s, 0, 255), bsl, lambda s: num(s, 16, 1048575)], b"leave": [R, lambda s: num(s, 0, 255)], b"join": [R, lambda s: num(s, 0, 255)],
                 **self.more_forms(R, num, bsl, ids)}
        if forms.get(w[0]) is None or len(w) - 1 != len(forms[w[0]]): raise ValueError("1 Word")
        return (w[0].decode(), *[f(x) for f, x in zip(forms[w[0]], w[1:])])

    def more_forms(self, router, num, bsl, ids):
        """The lines that a command has beside those of `replay`; without arguments those that it lacks."""
        return {}

    def do(self, ev, n):
        """Does what a line says."""
        if ev[0] == "settle": self.settle(ev[1], n)
        else: self.step(ev, n)

    def run(self, lines):
        """Does the lines of a schedule; the status."""
        count = n = 0
        for n, raw in enumerate(lines, 1):
            has_lf = raw.endswith(b"\n")
            count += len(raw); raw = raw.removesuffix(b"\n")
            if count > 67108864: self.report.append(f"refused {n} text 6 TooLong"); return 4
            if has_lf and raw.endswith(b"\r"): raw = raw[:-1]
            if len(raw) > 16384: self.report.append(f"refused {n} text 5 LineLong"); return 4
            if raw[:1] == b"#": continue
            w = [x for x in raw.split(b" ") if x]
            if not w: continue
            try:
                ev = self.parse(w)
            except ValueError as e:
                self.report.append(f"refused {n} text {e}"); return 4
            try:
                self.do(ev, n)
            except Refused as e:
                self.report.append(f"refused {n} event {e}"); return 4
        fl = sum(len([k for k in n[1] if k <= 65535]) for q in self.q.values() for _, n in q if n)
        self.report.append(f"done lines {n} injected {self.injections} named {self.named} got {self.got} dropped {self.dropped} flight {fl}")
        return 0
