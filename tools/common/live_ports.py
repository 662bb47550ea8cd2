"""Interfaces as raw packet sockets (Linux, AF_PACKET), which need root."""
import fcntl
import socket
import struct

from .trouble import Trouble

ALL_TYPES = 3  # ETH_P_ALL
SOL_PACKET, ADD_MEMBERSHIP, AUXDATA = 263, 1, 8
PROMISCUOUS = 1
SO_RCVBUFFORCE = 33
VLAN_VALID, TPID_VALID = 1 << 4, 1 << 6
SIOCGIFFLAGS, SIOCGIFADDR, SIOCGIFHWADDR, SIOCGIFINDEX = 0x8913, 0x8915, 0x8927, 0x8933
UP, RUNNING = 1, 0x40
BUFFER = 16 << 20
MOST = 65000  # octets of a frame that the program receives


def asked(request, name):
    """What the kernel says of an interface; None where it has none of that name, or nothing to say."""
    with socket.socket(socket.AF_INET, socket.SOCK_DGRAM) as asker:
        try:
            return fcntl.ioctl(asker, request, struct.pack("16s24x", name.encode()))[16:]
        except OSError:
            return None


def is_running(name):
    """Whether an interface is there, up, and has a carrier."""
    octets = asked(SIOCGIFFLAGS, name)
    wanted = UP | RUNNING
    return octets is not None and struct.unpack_from("<H", octets)[0] & wanted == wanted


def index_of(name):
    octets = asked(SIOCGIFINDEX, name)
    return octets and struct.unpack_from("<i", octets)[0]


def ipv4_of(name):
    """The interface's IPv4 address; 0.0.0.0 where it has none."""
    octets = asked(SIOCGIFADDR, name)
    return octets[4:8] if octets else bytes(4)


def mac_of(name):
    octets = asked(SIOCGIFHWADDR, name)
    return octets and octets[2:8]


class Port:
    """An interface, and the socket that it is read and written by while it works."""

    def __init__(self, name):
        self.name, self.socket, self.index = name, None, None
        if index_of(name) is None:
            raise Trouble(f"{name}: there is no such interface")

    def is_fit(self):
        """Whether the interface runs, and is still the one that was opened."""
        return is_running(self.name) and (self.socket is None or index_of(self.name) == self.index)

    def open(self):
        """Opens the socket; whether that succeeded."""
        try:
            made = socket.socket(socket.AF_PACKET, socket.SOCK_RAW, socket.htons(ALL_TYPES))
        except PermissionError:
            raise Trouble("raw sockets need root")
        try:
            made.setsockopt(socket.SOL_SOCKET, SO_RCVBUFFORCE, BUFFER)
            made.bind((self.name, ALL_TYPES))
            self.index = index_of(self.name)
            request = struct.pack("iHH8s", self.index, PROMISCUOUS, 0, b"")
            made.setsockopt(SOL_PACKET, ADD_MEMBERSHIP, request)
            made.setsockopt(SOL_PACKET, AUXDATA, 1)
            made.setblocking(False)
        except (OSError, struct.error):
            made.close()
            return False
        self.socket = made
        return True

    def close(self):
        if self.socket:
            self.socket.close()
        self.socket = None

    def receive(self):
        """The frame that arrived; None where there is none, the host itself sent it, or it is longer than the program receives."""
        try:
            octets, notes, flags, address = self.socket.recvmsg(MOST, 256)
        except OSError:
            return None
        if address[2] == socket.PACKET_OUTGOING or flags & socket.MSG_TRUNC:
            return None
        for level, kind, data in notes:
            if (level, kind) == (SOL_PACKET, AUXDATA):
                octets = with_tag(octets, data)
        return octets

    def send(self, frame):
        """Sends a frame. One that the interface doesn't take is lost, as on a link."""
        try:
            self.socket.send(frame)
        except OSError:
            pass


def with_tag(octets, data):
    """A frame with the VLAN tag that the kernel took out of it."""
    status, *_, tag, kind = struct.unpack_from("IIIHHHH", data)
    if not status & VLAN_VALID:
        return octets
    return octets[:12] + struct.pack(">HH", kind if status & TPID_VALID else 0x8100, tag) + octets[12:]
