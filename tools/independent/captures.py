"""Captures: the records of a file in the pcap or the pcapng format, and captures that are written."""
import struct

HEADER = bytes.fromhex("d4c3b2a1020004000000000000000000ffff000001000000")
MOST_CAPTURE, MOST_RECORD, MOST_BLOCK = 268435456, 262144, 16777216

class Broken(Exception):
    """A capture breaks a rule at a record."""
    def __init__(self, record, text): super().__init__(f"refused record {record} {text}")

def records_of(octets):
    """The records of a capture: number, seconds, microseconds, whether it is a complete Ethernet frame, and its octets, None where
    its link isn't Ethernet."""
    return blocks_of(octets) if octets[:4] == b"\n\r\r\n" else plain_records(octets)

def plain_records(octets):
    magics = {b"\xd4\xc3\xb2\xa1": ("<", 1), b"\x4d\x3c\xb2\xa1": ("<", 1000), b"\xa1\xb2\xc3\xd4": (">", 1), b"\xa1\xb2\x3c\x4d": (">", 1000)}
    if len(octets) >= 4 and octets[:4] not in magics: raise Broken(0, "1 Magic")
    if len(octets) < 24: raise Broken(0, "4 CutHeader")
    order, divisor = magics[octets[:4]]
    if struct.unpack(order + "HH", octets[4:8]) != (2, 4): raise Broken(0, "2 Version")
    if struct.unpack(order + "I", octets[20:24])[0] & 0xFFFF != 1: raise Broken(0, "3 LinkType")
    at, number = 24, 1
    while at < len(octets):
        if at + 16 <= min(len(octets), MOST_CAPTURE):
            sec, fraction, held, original = struct.unpack(order + "IIII", octets[at:at + 16])
            if held > MOST_RECORD: raise Broken(number, "6 LongRecord")
            if at + 16 + held <= min(len(octets), MOST_CAPTURE):
                yield number, sec, fraction // divisor, held == original, octets[at + 16:at + 16 + held]
                at += 16 + held; number += 1
                continue
        raise Broken(number, "8 TooLong" if len(octets) > MOST_CAPTURE else "5 CutRecord")

# ---------------------------------------------------------------- pcapng

SECTION, INTERFACE, SIMPLE, ENHANCED = 0x0A0D0D0A, 1, 3, 6
LEAST = {SECTION: 28, INTERFACE: 20, SIMPLE: 16, ENHANCED: 32}

def resolution_of(options, order):
    """The units a second of an interface's times, or None where its resolution isn't valid."""
    at = 0
    while at + 4 <= len(options):
        code, size = struct.unpack(order + "HH", options[at:at + 4])
        value = options[at + 4:at + 4 + size]
        at += 4 + (size + 3) // 4 * 4
        if code == 0 or at > len(options): break
        if code == 9 and size == 1:
            if value[0] < 128: return 10 ** value[0] if value[0] <= 18 else None
            return 1 << (value[0] - 128) if value[0] - 128 <= 63 else None
    return 10 ** 6

def blocks_of(whole):
    octets = whole[:MOST_CAPTURE]
    at, number, order, ends, time = 0, 1, None, [], (0, 0)
    def cut(): raise Broken(number, "8 TooLong" if len(whole) > MOST_CAPTURE else "18 NgCut")
    while at < len(octets):
        left = len(octets) - at
        if left < 4: cut()
        is_section = octets[at:at + 4] == b"\n\r\r\n"
        if order is None and not is_section: raise Broken(number, "11 NgMagic")
        if is_section:
            if left < 12: cut()
            order = {b"\x1a\x2b\x3c\x4d": ">", b"\x4d\x3c\x2b\x1a": "<"}.get(octets[at + 8:at + 12])
            if order is None: raise Broken(number, "12 NgOrder")
        if left < 8: cut()
        kind, size = struct.unpack(order + "II", octets[at:at + 8])
        if size < LEAST.get(kind, 12) or size % 4 or size > MOST_BLOCK: raise Broken(number, "14 NgLength")
        if left < size: cut()
        if octets[at + size - 4:at + size] != octets[at + 4:at + 8]: raise Broken(number, "14 NgLength")
        body = octets[at + 8:at + size - 4]
        at += size
        if is_section:
            if struct.unpack(order + "H", body[4:6])[0] != 1: raise Broken(number, "13 NgVersion")
            ends = []
        elif kind == INTERFACE:
            link, _, snap = struct.unpack(order + "HHI", body[:8])
            units = resolution_of(body[8:], order)
            if units is None: raise Broken(number, "17 NgTime")
            ends.append((link, snap, units))
        elif kind in (SIMPLE, ENHANCED):
            if kind == ENHANCED: end, high, low, held, original = struct.unpack(order + "IIIII", body[:20]); data = body[20:]
            else: end, original, data = 0, struct.unpack(order + "I", body[:4])[0], body[4:]
            if end >= len(ends): raise Broken(number, "15 NgInterface")
            link, snap, units = ends[end]
            if kind == SIMPLE: held = min(original, snap) if snap else original
            if held > len(data) or held > MOST_RECORD: raise Broken(number, "16 NgPacket")
            if kind == ENHANCED:
                stamp = high << 32 | low
                time = stamp // units, stamp % units * 10 ** 6 // units
                if time[0] > 0xFFFFFFFF: raise Broken(number, "17 NgTime")
            yield number, *time, link == 1 and held == original, data[:held] if link == 1 else None
            number += 1
    if len(whole) > MOST_CAPTURE: cut()

class Capture(bytearray):
    """A capture in the pcap format that is written frame by frame."""
    def __init__(self): super().__init__(HEADER)

    def add(self, end, sec, usec, frame): self += struct.pack("<IIII", sec, usec, len(frame), len(frame)) + frame

class CaptureNg(bytearray):
    """The same in the pcapng format, with that many interfaces."""
    def __init__(self, ends):
        super().__init__(struct.pack("<IIIHHqI", SECTION, 28, 0x1A2B3C4D, 1, 0, -1, 28))
        self += struct.pack("<IIHHII", INTERFACE, 20, 1, 0, 65535, 20) * ends

    def add(self, end, sec, usec, frame):
        body, stamp = frame + bytes(-len(frame) % 4), sec * 10 ** 6 + usec
        size = 32 + len(body)
        self += struct.pack("<IIIIIII", ENHANCED, size, end, stamp >> 32, stamp & 0xFFFFFFFF, len(frame), len(frame)) + body + struct.pack("<I", size)
