"""Data frames and the headers in them: RFC 8296, RFC 3032, RFC 2784."""
MPLS, BIER, IPV4 = 0x8847, 0xAB37, 0x0800
LENGTHS = {1: 64, 2: 128, 3: 256, 4: 512, 5: 1024, 6: 2048, 7: 4096}
# No label stack of the domain is deeper, and `headers` passes over those that are.
DEEPEST_STACK = 8
LSPS = (18, 20)  # PDU types, of level 1 and 2
HELLO = 17  # the PDU type of a point-to-point hello


class Header:
    """A BIER header, with the BitString length of its BSL field."""

    __slots__ = ("is_mpls", "bift", "ttl", "bits", "entropy", "protocol", "bfir", "bitstring", "payload")


class Tunnel:
    """The outer IPv4 header of a packet in GRE."""

    __slots__ = ("source", "destination", "ttl")

    def __init__(self, source, destination, ttl):
        self.source, self.destination, self.ttl = source, destination, ttl


def number(octets, start, count):
    return int.from_bytes(octets[start : start + count], "big")


def is_isis(octets):
    return len(octets) >= 17 and number(octets, 12, 2) <= 1500 and octets[14:17] == b"\xfe\xfe\x03"


def is_hello(octets):
    """Whether a frame is an IS-IS point-to-point hello."""
    return is_isis(octets) and len(octets) >= 22 and octets[21] & 31 == HELLO


class Hello:
    """A point-to-point hello with the TLV of a three-way handshake (RFC 5303): sender and neighbor are system IDs, None where the
    sender knows no neighbor; states are 0 Up, 1 Initializing, 2 Down."""

    __slots__ = ("source", "hold", "state", "circuit", "neighbor", "neighbor_circuit")


def hello_of(octets):
    """The hello in a frame; None for another frame, and for a hello without that TLV."""
    end = 14 + number(octets, 12, 2)
    if not is_hello(octets) or end > len(octets):
        return None
    it, at = Hello(), 37
    it.source, it.hold = octets[26:32], number(octets, 32, 2)
    while at + 2 <= end:
        kind, size, at = octets[at], octets[at + 1], at + 2
        if kind == 240 and size in (5, 15) and at + size <= end:
            it.state, it.circuit, is_whole = octets[at], number(octets, at + 1, 4), size == 15
            it.neighbor = octets[at + 5 : at + 11] if is_whole else None
            it.neighbor_circuit = number(octets, at + 11, 4) if is_whole else None
            return it
        at += size
    return None


def neighbors(octets):
    """The system identifiers that an LSP lists in its Extended IS Reachability TLVs (RFC 5305)."""
    found, at, end = set(), 44, 14 + number(octets, 12, 2)
    while at + 2 <= end:
        kind, at, last = octets[at], at + 2, at + 2 + octets[at + 1]
        while kind == 22 and at + 11 <= last:
            found.add(octets[at : at + 6])
            at += 11 + octets[at + 10]
        at = last
    return found


def bottom_of_stack(octets):
    """The offset of the last label of a stack; None where the stack can't be read."""
    for place in range(DEEPEST_STACK):
        at = 4 * place
        if at + 4 > len(octets):
            return None
        if octets[at + 2] & 1:
            return at
    return None


def fault_of(octets, is_mpls):
    """The first rule that a header breaks, as `headers` names it; None where it can be read."""
    if len(octets) < 12:
        return "1 Short"
    if is_mpls and octets[4] >> 4 != 5:
        return "2 Nibble"
    if octets[4] & 15:
        return "3 Version"
    if octets[5] >> 4 not in LENGTHS:
        return "4 BslCode"
    if len(octets) < 12 + LENGTHS[octets[5] >> 4] // 8:
        return "1 Short"
    return None


def header_of(octets, is_mpls):
    """The header at the start of octets in which `fault_of` finds no fault."""
    header = Header()
    header.is_mpls = is_mpls
    header.bift, header.ttl = number(octets, 0, 3) >> 4, octets[3]
    header.bits, header.entropy = LENGTHS[octets[5] >> 4], number(octets, 4, 4) & 0xFFFFF
    header.protocol, header.bfir = octets[9] & 63, number(octets, 10, 2)
    end = 12 + header.bits // 8
    header.bitstring, header.payload = number(octets, 12, end - 12), octets[end:]
    return header


def positions(bitstring):
    """The bit positions that are set in a BitString, ascending from 1."""
    found, at = [], 1
    while bitstring:
        if bitstring & 1:
            found.append(at)
        bitstring >>= 1
        at += 1
    return found


def bier_in(octets):
    """The octets from a frame's BIER header on and whether it follows labels; None where the frame has no BIER header."""
    if len(octets) < 14:
        return None
    kind, inside = number(octets, 12, 2), octets[14:]
    if kind == BIER:
        return inside, False
    if kind != MPLS:
        return None
    bottom = bottom_of_stack(inside)
    # After the stack the first four bits distinguish BIER (5) from IP.
    if bottom is None or len(inside) < bottom + 5 or inside[bottom + 4] >> 4 != 5:
        return None
    return inside[bottom:], True


def data_of(octets):
    """The header of a data frame that a router of the domain sent, and its tunnel or None; None for any other frame."""
    tunnel = None
    if len(octets) > 38 and number(octets, 12, 2) == IPV4 and octets[23] == 47:
        tunnel = Tunnel(octets[26:30], octets[30:34], octets[22])
        octets = octets[:12] + octets[36:]
    found = bier_in(octets)
    if found is None or fault_of(*found):
        return None
    return header_of(*found), tunnel


def header_line(octets):
    """A frame's line of `headers` without the record's number; None for a frame that is passed over."""
    found = bier_in(octets)
    if found is None:
        return None
    fault = fault_of(*found)
    if fault:
        return f"bad {fault}"
    header = header_of(*found)
    kind = "mpls" if header.is_mpls else "bier"
    places = ",".join(map(str, positions(header.bitstring))) or "-"
    words = (header.bift, header.ttl, header.bits, header.entropy, header.protocol, header.bfir)
    return f"{kind} {' '.join(map(str, words))} {places}"
