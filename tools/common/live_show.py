"""The LSDB of a live router, from its stream: the LSPs that the router would send to a neighbor that has none."""
import contextlib
import os
import struct
import subprocess
import tempfile

from . import domain, places
from .capture import read_capture
from .live_stream import HEADER, Frames, event, line_of, record
from .trouble import Trouble, read_octets

LAST = 2**32 - 1  # the second of what is asked, and of the answer
ALL_ROUTERS = bytes.fromhex("09002b000005")
TITLES = ("LSP ID", "", "Router", "PduLen", "SeqNumber", "Chksum", "Holdtime", "ATT/P/OL")
NUMBERS = ("PduLen", "Holdtime")


@contextlib.contextmanager
def stream_for(options):
    """The path of the stream that is kept, for as long as it is needed."""
    if options.record or not options.show:
        yield options.record
        return
    with tempfile.TemporaryDirectory() as folder:
        yield os.path.join(folder, "stream")


def whole(path):
    """The frames of a capture that is being written: those that are complete."""
    return Frames().feed(read_octets(path))


def whole_octets(path):
    """The octets of a capture that is being written, up to the end of its last complete record."""
    octets = read_octets(path) or HEADER
    at = len(HEADER)
    while at + 16 <= len(octets):
        size = 16 + struct.unpack_from("<I", octets, at + 8)[0]
        if at + size > len(octets):
            break
        at += size
    return octets[:at]


def peers_up(octets, router):
    """The neighbors to which the interfaces are up at the end of a stream that began with each of them going down."""
    found = []
    for line in map(line_of, Frames().feed(octets)):
        word, of, peer = ((line or "").split() + [None] * 3)[:3]
        if word in ("up", "down") and of == router:
            found = [other for other in found if other != peer] + [peer] * (word == "up")
    return found


def empty_csnp(conf, end):
    """The CSNP of a neighbor whose LSDB is empty (ISO/IEC 10589, 9.10)."""
    kind = 24 if conf["level"] == 1 else 25
    pdu = bytes([0x83, 33, 1, 0, kind, 1, 0, 0]) + struct.pack(">H", 33) + end["peer"] + bytes(1 + 8) + b"\xff" * 8
    return framed(end["peer_mac"], pdu)


def framed(mac, pdu):
    """The Ethernet frame of an IS-IS PDU from that address."""
    return ALL_ROUTERS + mac + struct.pack(">H", len(pdu) + 3) + b"\xfe\xfe\x03" + pdu


def asked(it, router, octets):
    """What makes a router send all its LSPs on a link. Only where no interface is up one comes up for that, and then the router's
    own LSP is a later one that lists it."""
    place = it.place[router]
    names = peers_up(octets, router)
    ends = {it.name(end["peer_at"]): end for end in it.ends(place)}
    if not ends:
        return []
    peer = names[0] if names else next(iter(ends))
    first = empty_csnp(it.confs[place], ends[peer]) if names else event(f"up {router} {peer}")
    return [first, event(f"send {router} {peer}")]


def lsps(program, conf, router, stream):
    """The PDUs of the LSPs of a router at the end of its stream, in the order of their IDs."""
    octets = whole_octets(stream)
    questions = asked(domain.read_domain(conf), router, octets)
    with tempfile.TemporaryDirectory() as folder:
        longer, sent = os.path.join(folder, "longer"), os.path.join(folder, "sent")
        with open(longer, "wb") as file:
            file.write(octets + b"".join(record(frame, LAST * 10**9) for frame in questions))
        done = subprocess.run([program, conf, router, longer, sent], stdout=subprocess.DEVNULL)
        if done.returncode:
            raise Trouble(f"{stream}: the program ended with status {done.returncode}")
        answers = [one.octets[17:] for one in read_capture(sent) if one.second == LAST]
    return sorted((pdu for pdu in answers if pdu[4] & 31 in (18, 20)), key=lsp_id)


def lsp_id(pdu):
    return pdu[12:20]


def lsp_text(pdu):
    system = ".".join(pdu[at : at + 2].hex() for at in (12, 14, 16))
    return f"{system}.{pdu[18]:02x}-{pdu[19]:02x}"


def values(pdu):
    """The PDU length, the sequence number, the checksum and the Remaining Lifetime of an LSP."""
    return tuple(int.from_bytes(pdu[at : at + size], "big") for at, size in ((8, 2), (20, 4), (24, 2), (10, 2)))


def row(it, own, pdu):
    length, number, checksum, life = values(pdu)
    place = it.by_system.get(pdu[12:18])
    name = lsp_text(pdu)[:14] if place is None else it.name(place)
    mark = "*" if pdu[12:18] == own else ""
    flags = f"{pdu[26] >> 3 & 15}/{pdu[26] >> 7}/{pdu[26] >> 2 & 1}"
    return lsp_text(pdu), mark, name, str(length), f"0x{number:08x}", f"0x{checksum:04x}", str(life), flags


def database(options):
    """The LSDB of a router at the end of its stream: the table `database` of `show_router`, without flags."""
    program = os.path.abspath(options.program or os.environ.get("LIVE_ROUTER") or places.LIVE)
    it = domain.read_domain(options.domain)
    own = it.routers[it.place[options.router]].system
    rows = [TITLES, *(row(it, own, pdu) for pdu in lsps(program, options.domain, options.router, options.record))]
    widths = [max(map(len, column)) for column in zip(*rows)]
    lines = [f"IS-IS link-state database of {options.router}"]
    for cells in rows:
        aligned = [
            cell.rjust(width) if title in NUMBERS and cells is not TITLES else cell.ljust(width)
            for title, cell, width in zip(TITLES, cells, widths)
        ]
        lines.append("  ".join(aligned).rstrip())
    return "\n".join(lines)
