"""A network from a capture: LSPs as `isis_dump` prints them, and MAC addresses from the frames of the links."""
import os
import subprocess
import threading

from . import capture, frames, places
from .lsps import Lsp, network_of
from .network import prefix_number, prefix_text
from .trouble import Trouble

POINT_TO_POINT, LAN = (17,), (15, 16)  # types of hellos


def feed(pipe, octets):
    try:
        with pipe:
            pipe.write(octets)
    except BrokenPipeError:
        pass  # the program rejected the capture before its end


def dumped(path, octets, program):
    """The lines of isis_dump, as it writes them."""
    program = program or os.environ.get("ISIS_DUMP") or places.DUMP
    if not os.access(program, os.X_OK):
        raise Trouble(f"{program}: isn't built (rt ci isis_dump builds it)")
    line = ""
    with subprocess.Popen([program], stdin=subprocess.PIPE, stdout=subprocess.PIPE) as running:
        threading.Thread(target=feed, args=(running.stdin, octets), daemon=True).start()
        for read in running.stdout:
            # Entries of CSNPs and PSNPs are most of the lines, and have nothing that is imported.
            if not read.startswith(b"  entry"):
                line = read.decode("utf-8", "replace").rstrip("\n")
                yield line
    if running.returncode == 8:
        raise Trouble(f"{path}: {line}")
    if running.returncode or not line.startswith("done"):
        raise Trouble(f"{program}: status {running.returncode}")


class Reader:
    """The LSPs of a dump up to a second, and which system sent which record."""

    def __init__(self, until):
        self.until, self.lsps, self.sources, self.notes = until, {}, {}, []
        self.rejected = {}  # the records that break a rule
        self.lsp = self.info = None  # whose details follow

    def read(self, lines):
        for line in lines:
            words = line.split()
            if not line.startswith(" "):
                self.lsp = self.info = None
                if words[0].isdigit() and (self.until is None or int(words[1].split(".")[0]) <= self.until):
                    self.head(int(words[0]), words[2:])
            elif self.lsp is not None:
                self.detail(words, line)
        for rule, records in self.rejected.items():
            count = f"{len(records)} records" if len(records) > 1 else "1 record"
            self.notes.append(f"{rule}: {count} skipped, the first is record {records[0]}")

    def head(self, record, words):
        if words[0] == "lsp":
            system, rest = words[2][:14], words[2][15:]
            lsp = Lsp(int(words[1]), system, int(rest[:2], 16), int(rest[3:], 16), int(words[4]), int(words[6]))
            lsp.overload = bool(int(words[-1], 16) & 4)
            # Each LSP is flooded over many links: the details of the first copy are enough.
            held = self.lsps.get((lsp.level, *lsp.key()))
            if held is None or held.age() < lsp.age():
                self.lsps[lsp.level, *lsp.key()] = self.lsp = lsp
        elif words[0] in ("csnp", "psnp"):
            self.sources[record] = words[3]
        elif "refused" in words:
            self.rejected.setdefault(" ".join(words), []).append(record)

    def detail(self, words, line):
        lsp, kind = self.lsp, words[0]
        if kind == "area":
            lsp.areas.append(words[1].replace(".", ""))
        elif kind == "name":
            lsp.name = line.strip()[5:] or None
        elif kind == "reach":
            lsp.reaches.append((words[1][:14], int(words[1][15:], 16), int(words[3])))
        elif kind == "prefix":
            prefix, bits = words[1].split("/")
            lsp.prefixes.append((prefix, int(bits), int(words[3])))
        elif kind == "bier":
            self.info = (lsp.prefixes[-1][0], int(words[2]), int(words[4]), [])
            # Only a router's own prefix is a BFR-prefix (RFC 8401, 6.1).
            lsp.infos += [self.info] if lsp.prefixes[-1][1] == 32 else []
        elif kind == "labels" and self.info:
            self.info[3].append((int(words[2]), int(words[4]), int(words[6])))
        elif kind == "tlv" and words[1] == "134" and len(words) == 3 and len(words[2]) == 8:
            text = prefix_text(int(words[2], 16))
            lsp.router_id = text if prefix_number(text) else None
        elif kind == "refused":
            note = f"LSP {lsp.text()}: {line.strip()}"
            self.notes += [note] if note not in self.notes else []


# ---- MAC addresses


def system_of(octets):
    digits = octets.hex()
    return f"{digits[:4]}.{digits[4:8]}.{digits[8:]}"


def tlvs(octets, at):
    """The TLVs of a PDU, as code and value, from an offset of its frame on."""
    end = min(14 + frames.number(octets, 12, 2), len(octets))
    while at + 2 <= end:
        code, length = octets[at : at + 2]
        yield code, octets[at + 2 : at + 2 + length]
        at += 2 + length


class Macs:
    """What frames tell of MAC addresses: whose they are, and on which link."""

    def __init__(self, records, sources):
        self.owners = {}  # of an address, the systems that sent from it
        self.on_links = {}  # of a system and the neighbor that its hellos name, its addresses
        self.on_lans = {}  # of a system and a LAN
        self.hosts = {}  # of an address, the IP address of its interface, as a number
        self.pairs = set()  # sender and receiver of frames to one receiver
        for record in records:
            octets = record.octets
            if len(octets) < 14:
                continue
            system = sources.get(record.number)
            if frames.is_isis(octets) and len(octets) >= 17 + 20:
                system = self.hello(octets) or system
            elif not octets[0] & 1:
                self.pairs.add((octets[6:12], octets[:6]))
            if system:
                self.owners.setdefault(octets[6:12], set()).add(system)

    def hello(self, octets):
        """The sender of a hello; None for another frame."""
        kind, system, mac = octets[21] & 31, system_of(octets[26:32]), octets[6:12]
        if kind in POINT_TO_POINT:
            for code, value in tlvs(octets, 17 + 20):
                if code == 240 and len(value) >= 11:
                    # The neighbor of a three-way handshake (RFC 5303, 3).
                    self.on_links.setdefault((system, system_of(value[5:11])), set()).add(mac)
                elif code == 132 and len(value) >= 4:
                    self.hosts[mac] = frames.number(value, 0, 4)
        elif kind in LAN and len(octets) >= 17 + 27:
            self.on_lans.setdefault((system, (system_of(octets[37:43]), octets[43])), set()).add(mac)
        else:
            return None
        return system

    def owner(self, mac):
        owners = self.owners.get(mac, ())
        return next(iter(owners)) if len(owners) == 1 else None

    def place(self, network, at):
        """Gives links the addresses that are known for certain; how many, and of how many interfaces. `at` is a mirror's router."""
        found = 0
        for link in network.links:
            for here, there, key in ((link.a, link.b, "mac_a"), (link.b, link.a, "mac_b")):
                macs = self.addresses(here.system, there.system, link.lan, at)
                if len(macs) > 1:
                    macs = self.on_subnets(macs, here, link.metric_ab if key == "mac_a" else link.metric_ba)
                if not macs and (here.adjacencies == 1 or there.system == at):
                    macs = {mac for mac in self.owners if self.owner(mac) == here.system} - self.elsewhere(here.system)
                if len(macs) == 1:
                    setattr(link, key, next(iter(macs)).hex(":"))
                    found += 1
                elif len(macs) > 1:
                    network.note(f"{link.shown()}: {len(macs)} MAC addresses at {here.shown()}, none imported")
        return found, 2 * len(network.links)

    def addresses(self, here, there, lan, at):
        """A router's addresses toward a neighbor: by its hellos, or else by frames to one receiver between the two."""
        named = self.on_lans.get((here, lan)) if lan else self.on_links.get((here, there))
        if named:
            return named
        macs = set()
        for sender, receiver in self.pairs:
            source, target = self.owner(sender), self.owner(receiver)
            if (source, target) == (here, there):
                macs.add(sender)
            # What a mirror shows of a neighbor's frames is for the mirror's router.
            if source == there and (target == here or target is None and here == at):
                macs.add(receiver)
        return macs - self.elsewhere(here)

    def on_subnets(self, macs, router, metric):
        """Those of the addresses whose interface is in a prefix that the router advertises with a metric; all where none is."""
        found = set()
        for prefix, bits, of_prefix in router.prefixes:
            if of_prefix == metric and bits < 32:
                found |= {mac for mac in macs if mac in self.hosts and (self.hosts[mac] ^ prefix_number(prefix)) >> 32 - bits == 0}
        return found or macs

    def elsewhere(self, here):
        """A router's addresses on links that its hellos name."""
        named = [macs for found in (self.on_links, self.on_lans) for (system, _), macs in found.items() if system == here]
        return set().union(*named)


def read(path, octets, options):
    reader = Reader(options.until)
    if octets[:4] == capture.NG:
        octets = capture.written(capture.records_in(path, octets))
    reader.read(dumped(path, octets, options.dump))
    network, routers = network_of(reader.lsps.values(), options, path)
    network.notes[:0] = reader.notes
    at = None
    if options.at:
        at = next((system for system, router in routers.items() if options.at in (router.label, system)), None)
        if at is None:
            raise Trouble(f"--at {options.at}: no router of that name or system ID has an LSP in {path}")
    placed, of = Macs(capture.records_in(path, octets), reader.sources).place(network, at)
    rest = "" if placed == of else "; the others have the default"
    network.head.append(f"MAC addresses of {placed} of {of} interfaces are in the capture{rest}.")
    return network
