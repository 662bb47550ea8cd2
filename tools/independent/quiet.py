"""A domain that runs a schedule with two more lines: `quiet`, and `cover` for what reaches its egresses from now on."""
from model import Refused, Replay

class Check(Replay):
    def more_forms(self, router, num, bsl, ids):
        return {b"quiet": [], b"cover": [router, lambda s: num(s, 0, 255), bsl, ids, lambda s: num(s, 1, 255), lambda s: num(s, 0, 1048575)]}

    def do(self, ev, n):
        if ev[0] == "quiet": self.report.append(f"{n} quiet {self.quiet()}")
        elif ev[0] == "cover": self.report.append(f"{n} cover {self.ids_text(self.cover(*ev[1:]))}")
        else: super().do(ev, n)

    def quiet(self):
        for r in self.routers:
            if r.spent: return f"no spent {r.conf['name']}"
        for a, b in self.conf.links:
            up = [self.routers[x].up[self.end(x, y)] for x, y in ((a, b), (b, a))]
            if up[0] != up[1]: return f"no half {self.conf[a]['name']} {self.conf[b]['name']}"
            if not up[0]: continue
            live = [{i: (e["seq"], e["flags"], e["content"]) for i, e in self.routers[x].entries.items() if e["life"] > 0} for x in (a, b)]
            differ = [i for i in live[0].keys() | live[1].keys() if live[0].get(i) != live[1].get(i)]
            if differ:
                i = min(differ).hex()
                return f"no data {self.conf[a]['name']} {self.conf[b]['name']} {i[:4]}.{i[4:8]}.{i[8:12]}.{i[12:14]}-{i[14:]}"
        return "yes"

    def cover(self, a, sd, length, ids, ttl, entropy):
        r = self.routers[a]
        why = r.edge_fault(sd, length, ids)
        if why: raise Refused("7 Edge " + why)
        own = next(s["id"] for s in r.conf["subs"] if s["sd"] == sd)
        return sorted(k for k in set(ids) if k == own or self.reaches(r, (sd, length, (k - 1) // length), entropy % 16, k, ttl))

    def reaches(self, r, t, entropy_class, k, ttl):
        """Whether a packet with that TTL comes from a router to the owner of an id, over tunnels of at most 255 links each."""
        V = r.view(); at = next(i for i, n in enumerate(V) if n["system"] == r.conf["system"])
        hops = 0
        while not any(s[0] == t[0] and s[1] == k for s in V[at]["subs"]):
            choice = r.choice(V, at, t, entropy_class, k)
            if choice is None or hops == ttl or not choice[1] and self.links_to(r, V, at, choice[0]) > 255: return False
            at = choice[0]; hops += 1
        return True

    def links_to(self, r, V, at, to):
        count = 0
        while at != to: at = r.tight(V, r.dist_to(V, to), at, to)[0]; count += 1
        return count
