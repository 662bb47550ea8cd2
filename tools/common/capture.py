"""Captures in the formats pcap and pcapng, as `replay` and `replay-ng` write them and `headers` reads them."""
import struct

from .trouble import Trouble, read_octets

HEADER = struct.pack("<IHHIIII", 0xA1B2C3D4, 2, 4, 0, 0, 65535, 1)
# The byte order, by the first four octets.
MAGICS = {
    bytes.fromhex("d4c3b2a1"): "<",
    bytes.fromhex("a1b2c3d4"): ">",
    bytes.fromhex("4d3cb2a1"): "<",
    bytes.fromhex("a1b23c4d"): ">",
}


NG = bytes.fromhex("0a0d0d0a")  # of a pcapng file
SECTION, INTERFACE, SIMPLE, ENHANCED = 0x0A0D0D0A, 1, 3, 6


class Record:
    """A frame of a capture. Its number counts from 1; in a replay's capture its second is the line of the schedule."""

    __slots__ = ("number", "second", "octets")

    def __init__(self, number, second, octets):
        self.number, self.second, self.octets = number, second, octets


def read_capture(path):
    """All records of a capture file."""
    return records_in(path, read_octets(path))


def records_in(path, octets):
    """All records of the octets of a capture file."""
    if octets[:4] == NG:
        return list(ng_records(path, octets))
    order = MAGICS.get(octets[:4])
    if order is None:
        raise Trouble(f"{path}: not a capture in the format pcap or pcapng")
    if len(octets) < 24:
        raise Trouble(f"{path}: the capture ends within its header")
    link_type = struct.unpack_from(order + "I", octets, 20)[0] & 0xFFFF
    if link_type != 1:
        raise Trouble(f"{path}: the capture's link type is {link_type}, not Ethernet (1)")
    return list(records_of(path, octets, order))


def records_of(path, octets, order, at=24):
    """The records of a capture from an offset on, numbered from 1."""
    number = 0
    while at < len(octets):
        number += 1
        if at + 16 > len(octets):
            raise Trouble(f"{path}: the capture ends within record {number}")
        second, _, length, _ = struct.unpack_from(order + "IIII", octets, at)
        if at + 16 + length > len(octets):
            raise Trouble(f"{path}: the capture ends within record {number}")
        yield Record(number, second, octets[at + 16 : at + 16 + length])
        at += 16 + length


class Interface:
    """An interface of a pcapng section: its link type, its snap length, and the units of its times in a second."""

    def __init__(self, body, order):
        self.link_type, _, self.snap = struct.unpack_from(order + "HHI", body)
        self.units, at = 10**6, 8
        while at + 4 <= len(body):
            code, size = struct.unpack_from(order + "HH", body, at)
            if code == 0:
                break
            if code == 9 and size == 1:
                exponent = body[at + 4]
                self.units = 10**exponent if exponent < 128 else 1 << (exponent - 128)
                break
            at += 4 + (size + 3) // 4 * 4


def ng_blocks(path, octets):
    """The blocks of a pcapng file: type, body and byte order."""
    at, order = 0, "<"
    while at < len(octets):
        if octets[at : at + 4] == NG:
            order = ">" if octets[at + 8 : at + 12] == bytes.fromhex("1a2b3c4d") else "<"
        if at + 12 > len(octets):
            raise Trouble(f"{path}: the capture ends within a block")
        kind, size = struct.unpack_from(order + "II", octets, at)
        if size < 12 or size % 4 or at + size > len(octets):
            raise Trouble(f"{path}: the block at octet {at} has a length of {size}")
        yield kind, octets[at + 8 : at + size - 4], order
        at += size


def ng_records(path, octets):
    """The records of a pcapng file, numbered from 1."""
    number, interfaces, second = 0, [], 0
    for kind, body, order in ng_blocks(path, octets):
        if kind == SECTION:
            interfaces = []
        elif kind == INTERFACE:
            interfaces.append(Interface(body, order))
        elif kind in (ENHANCED, SIMPLE):
            number += 1
            place = struct.unpack_from(order + "I", body)[0] if kind == ENHANCED else 0
            if place >= len(interfaces):
                raise Trouble(f"{path}: record {number} is on an interface that the capture lacks")
            here = interfaces[place]
            if here.link_type != 1:
                raise Trouble(f"{path}: the link type of record {number} is {here.link_type}, not Ethernet (1)")
            if kind == ENHANCED:
                high, low, length = struct.unpack_from(order + "III", body, 4)
                second, data = (high << 32 | low) // here.units, body[20 : 20 + length]
            else:
                length = struct.unpack_from(order + "I", body)[0]
                data = body[4 : 4 + min(length, here.snap or length)]
            yield Record(number, second, data)


def written(records):
    """A pcap file of records, as octets."""
    return HEADER + b"".join(
        struct.pack("<IIII", record.second, 0, len(record.octets), len(record.octets)) + record.octets for record in records
    )


def write_capture(frames):
    """A capture of frames as octets; each frame's second is its number, from 1."""
    return written([Record(number, number, frame) for number, frame in enumerate(frames, 1)])
