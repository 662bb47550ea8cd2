"""isis_dump on the captures of the examples and on hellos of FRR, compared with tshark, and on damaged frames."""
import glob
import os
import struct
import subprocess
import tempfile
import unittest
import xml.etree.ElementTree

from support import EXAMPLES, HERE, needs, places, scratch

CRATES = os.path.join(places.ROOT, "crates")
PROGRAM = os.environ.get("ISIS_DUMP") or os.path.join(CRATES, "isis_dump", "out", "isis_dump")
PCAPNG = bytes.fromhex("0a0d0d0a")


def is_pcap(path):
    """isis_dump reads the format pcap alone."""
    with open(path, "rb") as file:
        return file.read(4) != PCAPNG


FRAMES = sorted(glob.glob(os.path.join(EXAMPLES, "*", "frames")))
CAPTURES = [path for path in FRAMES if is_pcap(path)] + [os.path.join(CRATES, "show_capture", "stdout")]
FRR = sorted(glob.glob(os.path.join(HERE, "frr", "**", "*.pcap"), recursive=True))

KINDS = {18: "lsp 1", 20: "lsp 2", 24: "csnp 1", 25: "csnp 2", 26: "psnp 1", 27: "psnp 2"}
FIELDS = {
    "number": "frame.number",
    "time": "frame.time_epoch",
    "type": "isis.type",
    "id": "isis.lsp.lsp_id",
    "seq": "isis.lsp.sequence_number",
    "life": "isis.lsp.remaining_life",
    "sum": "isis.lsp.checksum",
    "right": "isis.lsp.checksum.status",
    "partition": "isis.lsp.partition_repair",
    "attached": "isis.lsp.att",
    "overload": "isis.lsp.overload",
    "is_type": "isis.lsp.is_type",
    "csnp_source": "isis.csnp.source_id",
    "first": "isis.csnp.start_lsp_id",
    "last": "isis.csnp.end_lsp_id",
    "psnp_source": "isis.psnp.source_id",
    "entry_id": "isis.csnp.lsp_id",
    "entry_seq": "isis.csnp.lsp_seq_num",
    "entry_life": "isis.csnp.lsp_remain_life",
    "entry_sum": "isis.csnp.lsp_checksum",
    "area": "isis.lsp.area_address",
    "protocols": "isis.lsp.clv_nlpid.nlpid",
    "name": "isis.lsp.hostname",
    "neighbour": "isis.lsp.ext_is_reachability.is_neighbor_id",
    "link_metric": "isis.lsp.ext_is_reachability.metric",
    "prefix": "isis.lsp.ext_ip_reachability.ipv4_prefix",
    "bits": "isis.lsp.ext_ip_reachability.prefix_length",
    "prefix_metric": "isis.lsp.ext_ip_reachability.metric",
    "down": "isis.lsp.ext_ip_reachability.distribution",
    "sd": "isis.lsp.bier_subdomain",
    "bfr_id": "isis.lsp.bier_bfrid",
    "max_si": "isis.lsp.bier.subsub.mplsencap.maxsi",
    "bsl": "isis.lsp.bier.subsub.mplsencap.bslen",
    "label": "isis.lsp.bier.subsub.mplsencap.label",
}


def dump(octets):
    """The program's output for a capture, and its status."""
    done = subprocess.run([PROGRAM], input=octets, capture_output=True, timeout=120)
    return done.stdout.decode(), done.returncode


def read(path):
    with open(path, "rb") as file:
        return file.read()


def numbers(text):
    return [int(it, 0) for it in text.split("|") if it]


def words(text):
    return [it for it in text.split("|") if it]


def flags_of(row):
    """The flags octet of an LSP, from its parts."""
    one = {"True": 1, "1": 1}
    parts = (one.get(row["partition"], 0), int(row["attached"] or "0", 0), one.get(row["overload"], 0), int(row["is_type"] or "0", 0))
    return parts[0] * 128 + parts[1] * 8 + parts[2] * 4 + parts[3]


def area_of(area):
    """An area address with its length before it, in the program's format."""
    octets = bytes.fromhex(area.replace(":", ""))[1:]
    return "area " + octets[:1].hex() + "".join("." + octets[at : at + 2].hex() for at in range(1, len(octets), 2))


def protocols_of(found):
    return "protocols " + " ".join(f"{it:02x}" for it in found)


def begin_of(number, time):
    seconds, fraction = time.split(".")
    return f"{number} {int(seconds)}.{fraction[:6]}"


def head_of(row):
    kind = KINDS[int(row["type"], 0) % 32]
    if kind.startswith("lsp"):
        life = int(row["life"])
        # 1 is tshark's value of a good checksum.
        right = ("right" if row["right"] == "1" else "wrong") if life else "unused"
        return f"{kind} {row['id']} seq {int(row['seq'], 0)} life {life} sum {int(row['sum'], 0):04x} {right} flags {flags_of(row):02x}"
    if kind.startswith("csnp"):
        return f"{kind} source {row['csnp_source']} first {row['first']} last {row['last']}"
    return f"{kind} source {row['psnp_source']}"


def details_of(row):
    """The lines of TLVs and their parts, in no order: tshark gives each field's values apart."""
    lines = [f"{begin_of(row['number'], row['time'])} {head_of(row)}"]
    for it in zip(words(row["entry_id"]), numbers(row["entry_seq"]), numbers(row["entry_life"]), numbers(row["entry_sum"]), strict=True):
        lines.append(f"entry {it[0]} seq {it[1]} life {it[2]} sum {it[3]:04x}")
    lines += [area_of(area) for area in words(row["area"])]
    if row["protocols"]:
        lines.append(protocols_of(numbers(row["protocols"])))
    lines += [f"name {it}" for it in words(row["name"])]
    lines += [f"reach {a} metric {m}" for a, m in zip(words(row["neighbour"]), numbers(row["link_metric"]), strict=True)]
    for a, n, m, d in zip(words(row["prefix"]), words(row["bits"]), words(row["prefix_metric"]), words(row["down"]), strict=True):
        lines.append(f"prefix {a}/{n} metric {m}" + (" down" if d in ("1", "True") else ""))
    lines += [f"bier sd {sd} id {k}" for sd, k in zip(numbers(row["sd"]), numbers(row["bfr_id"]), strict=True)]
    for si, code, label in zip(numbers(row["max_si"]), numbers(row["bsl"]), numbers(row["label"]), strict=True):
        lines.append(f"labels bsl {32 << code} max_si {si} label {label}")
    return sorted(lines)


def tshark(path, chosen, *form):
    done = subprocess.run(["tshark", "-r", path, "-Y", chosen, *form], capture_output=True, text=True, timeout=300, check=True)
    return done.stdout


# ---- hellos: tshark's own tree, in which each TLV has its octets

POINT_TO_POINT = 17
STATES = ("up", "initializing", "down")


def shown(node, name):
    """The values of a field below a node."""
    return [it.get("show") for it in node.iter("field") if it.get("name") == name]


def tlv_lines(tlv):
    code = int(shown(tlv, "isis.hello.clv.type")[0])
    if code == 1:
        return [area_of(area) for area in shown(tlv, "isis.hello.area_address")]
    if code == 129:
        return [protocols_of(int(it, 0) for it in shown(tlv, "isis.hello.clv_nlpid.nlpid"))]
    return [f"tlv {code} {tlv.get('value')[4:]}".rstrip()]


def hello_head(packet):
    """What follows the number and the time; of a hello without a three-way handshake the type alone."""
    fields = {}
    for it in packet.iter("field"):
        fields.setdefault(it.get("name").removeprefix("isis.hello."), it.get("show"))
    kind = int(fields["isis.type"])
    if kind != POINT_TO_POINT or "adjacency_state" not in fields:
        return f"hello type {kind}"
    state, circuit = STATES[int(fields["adjacency_state"])], int(fields["extended_local_circuit_id"], 0)
    head = f"hello source {fields['source_id']} hold {fields['holding_timer']} circuit {circuit} state {state}"
    if "neighbor_systemid" in fields:
        head += f" neighbor {fields['neighbor_systemid']} circuit {int(fields['neighbor_extended_local_circuit_id'], 0)}"
    return head


def hello_lines(packet):
    """The lines of a hello, in order."""
    head = hello_head(packet)
    begin = begin_of(shown(packet, "frame.number")[0], shown(packet, "frame.time_epoch")[0])
    has_tlvs = not head.startswith("hello type")
    tlvs = packet.findall("proto[@name='isis.hello']/field[field]") if has_tlvs else []
    return [f"{begin} {head}", *(line for tlv in tlvs for line in tlv_lines(tlv))]


# ---- all of a capture, by the number of the frame


def hellos_by_tshark(path):
    packets = xml.etree.ElementTree.fromstring(tshark(path, "isis.hello", "-T", "pdml"))
    return {int(shown(it, "frame.number")[0]): hello_lines(it) for it in packets}


def by_tshark(path):
    """tshark's dissection of each IS-IS frame, in the program's format."""
    chosen = [word for field in FIELDS.values() for word in ("-e", field)]
    text = tshark(path, "isis and not isis.hello", "-T", "fields", "-E", "occurrence=a", "-E", "aggregator=|", *chosen)
    rows = [dict(zip(FIELDS, line.split("\t"), strict=True)) for line in text.splitlines()]
    return {int(row["number"]): details_of(row) for row in rows} | hellos_by_tshark(path)


def is_hello(lines):
    return " hello " in lines[0]


def by_program(text):
    """The lines of each frame: of a hello in order, and else in the order of their letters."""
    found = []
    for line in text.splitlines()[:-1]:
        if not line.startswith(" "):
            found.append([])
        found[-1].append(line.strip())
    return {int(lines[0].split()[0]): lines if is_hello(lines) else sorted(lines) for lines in found}


# ---- frames that are damaged

HEADER = struct.pack("<IHHiIII", 0xA1B2C3D4, 2, 4, 0, 0, 65535, 1)
CSNP = "83210100190100000033000000000001000000000000000000ffffffffffffffff091004b0000000000001000000000001554e"
LSP = (
    "831b010014010000004d04b0000000000001000000000001554e030104034900018101cc890141160b0000000000020000000a00"
    "871700000000600a0000010d200b0000000001010400100064"
)
HELLO = "831401001101000002000000000001001e002e01010403490001" "8101cc" "f00f000000010000000000000200000007"
# a PDU, the index of an octet that is changed, its new value, and the rule that is then broken
DAMAGE = [
    (LSP, 0, 0x82, "refused pdu 2 Discriminator"),
    (LSP, 2, 0, "refused pdu 3 Version"),
    (LSP, 3, 1, "refused pdu 4 IdLength"),
    (LSP, 1, 28, "refused pdu 5 HeaderLength"),
    (LSP, 9, 0x4E, "refused pdu 6 PduLength"),
    (LSP, -1, 0x65, "refused pdu 7 Checksum"),
    (CSNP, 34, 17, "refused pdu 8 Tlv"),
    (LSP, 4, 14, "other type 14"),
    (LSP, 4, 16, "hello type 16"),
    (LSP, 4, 17, "refused hello 6 HeaderLength"),
    (HELLO, 0, 0x82, "refused pdu 2 Discriminator"),
    (HELLO, 5, 0, "refused pdu 3 Version"),
    (HELLO, 3, 7, "refused pdu 4 IdLength"),
    (HELLO, 1, 19, "refused hello 6 HeaderLength"),
    (HELLO, 18, 19, "refused hello 7 PduLength"),
    (HELLO, 18, 0x2F, "refused hello 7 PduLength"),
    (HELLO, 18, 0x2D, "refused hello 8 Tlv"),
    (HELLO, -16, 16, "refused hello 8 Tlv"),
    # without a three-way handshake, or with a state that there isn't
    (HELLO, -17, 241, "hello type 17"),
    (HELLO, -15, 3, "hello type 17"),
]


def frame(pdu):
    return bytes.fromhex("09002b000005020000000001") + struct.pack(">H", len(pdu) + 3) + b"\xfe\xfe\x03" + pdu


def capture(*frames):
    return HEADER + b"".join(struct.pack("<IIII", 7, 5, len(it), len(it)) + it for it in frames)


def purge(tlvs):
    """A dead LSP with those TLVs: its checksum isn't tested."""
    head = bytes.fromhex("831b010014010000") + struct.pack(">HH", 27 + len(tlvs), 0)
    return head + bytes.fromhex("0000000000010000" "00000002" "0000" "03") + tlvs


def hello(kind, *tlvs):
    """A hello with those TLVs, a code and a value each: of type 17, or of 15 or 16, which are sent on a LAN."""
    octets = b"".join(bytes([code, len(value)]) + value for code, value in tlvs)
    front = 20 if kind == POINT_TO_POINT else 27
    last = b"\x07" if kind == POINT_TO_POINT else b"\x40" + bytes.fromhex("00000000000301")
    head = bytes([0x83, front, 1, 0, kind, 1, 0, 0, 3]) + bytes.fromhex("1921680010010400")
    return head + struct.pack(">H", front + len(octets)) + last + octets


AREAS = (1, bytes.fromhex("0349000105490002000a"))
IPV4, IPV6 = 0xCC, 0x8E
PROTOCOLS = (129, bytes([IPV4, IPV6]))
WAY = (240, bytes.fromhex("0000000102" "1921680010020000ffff"))
PADDING = (8, bytes(255))
HELLOS = [
    hello(17, AREAS, PROTOCOLS, WAY, *[PADDING] * 5, (8, bytes(100))),
    hello(17, WAY, AREAS, (132, bytes([10, 0, 0, 1])), (211, bytes(3)), (229, bytes([0, 0, 0, 2]))),
    hello(17, (240, bytes.fromhex("01" "ffffffff" "192168001002" "00000000")), (251, b""), (250, b"own")),
    hello(17, (240, bytes.fromhex("02" "00010000"))),
    # Of several three-way adjacency TLVs the first counts.
    hello(17, AREAS, WAY, PROTOCOLS, (240, bytes.fromhex("01000000031921680010030000fffe"))),
    hello(17, AREAS, PROTOCOLS),
    hello(15, AREAS, PROTOCOLS, (6, bytes(6))),
    hello(16, AREAS),
]


# TLVs, and the line that names the rule which they break
BROKEN = [
    ("160a0000000000020000000a", "  refused reach 2 EntryShort"),
    ("870500000000" "21", "  refused prefix 3 PrefixLen"),
    ("8704" "00000000", "  refused prefix 2 EntryShort"),
    ("0101" "03", "  refused area 2 EntryShort"),
    ("870e" "00000000" "60" "0a000001" "04" "20020000", "    refused bier 1 Short"),
    ("8711" "00000000" "60" "0a000001" "07" "20050100000001", "    refused bier 3 Algorithm"),
    ("870c" "00000000" "60" "0a000001" "02" "2003", "    refused sub 1 Overrun"),
    ("0911" + "00" * 17, "  refused entry 2 EntryShort"),
]


@unittest.skipUnless(os.access(PROGRAM, os.X_OK), "isis_dump isn't built (rt ci builds it)")
class IsisDump(unittest.TestCase):
    @needs("tshark", "tshark")
    def test_says_what_tshark_says(self):
        count = 0
        for path in CAPTURES:
            with self.subTest(capture=os.path.relpath(path, places.ROOT)):
                text, status = dump(read(path))
                self.assertEqual(status, 0, text[-200:])
                found, wanted = by_program(text), by_tshark(path)
                self.assertEqual(found, wanted)
                self.assertEqual(text.splitlines()[-1].split()[4:], [str(len(wanted)), "refused", "0"])
                count += len(wanted)
        self.assertGreater(count, 100)

    @needs("tshark", "tshark")
    def test_hellos(self):
        """Hellos of FRR and others, field by field."""
        made = scratch("hellos.pcap")
        with open(made, "wb") as file:
            file.write(capture(*map(frame, HELLOS)))
        for path, least in [(path, 100) for path in FRR] + [(made, len(HELLOS))]:
            with self.subTest(capture=os.path.basename(os.path.dirname(path))):
                text, status = dump(read(path))
                found = {number: lines for number, lines in by_program(text).items() if is_hello(lines)}
                self.assertEqual((found, status), (hellos_by_tshark(path), 0))
                self.assertGreaterEqual(len(found), least)
                self.assertTrue(text.endswith(" refused 0\n"))

    def test_damaged_pdus(self):
        for pdu, place, value, rule in DAMAGE:
            with self.subTest(rule=rule):
                octets = bytearray.fromhex(pdu)
                octets[place] = value
                text, status = dump(capture(frame(bytes(octets)), frame(bytes.fromhex(LSP))))
                lines = text.splitlines()
                self.assertEqual((lines[0], status), (f"1 7.000005 {rule}", 0))
                # and the next frame is read
                self.assertTrue(lines[1].startswith("2 7.000005 lsp 2 0000.0000.0001.00-00 seq 1 "))

    def test_each_octet_of_a_live_lsp(self):
        """No octet that the checksum covers can be changed unseen, but between 0 and 255."""
        whole = bytearray.fromhex(LSP)
        for place in range(12, len(whole)):
            octets = bytearray(whole)
            octets[place] ^= 0x11
            self.assertIn("refused pdu 7 Checksum", dump(capture(frame(bytes(octets))))[0])

    def test_broken_entries(self):
        for tlvs, line in BROKEN:
            with self.subTest(line=line):
                text, status = dump(capture(frame(purge(bytes.fromhex(tlvs)))))
                self.assertEqual(status, 0)
                self.assertIn(line, text.splitlines())

    def test_frames_and_captures(self):
        """A truncated frame, frames that are passed over, a capture that ends within a record, and arguments."""
        cut = frame(bytes.fromhex(LSP))[:60]
        text, status = dump(HEADER + struct.pack("<IIII", 7, 5, 60, 94) + cut)
        self.assertEqual((text.splitlines()[0], status), ("1 7.000005 cut refused frame 2 Length", 0))
        self.assertEqual(dump(capture(b"\0" * 13))[0].splitlines()[0], "1 7.000005 refused frame 1 Short")
        text, status = dump(capture(frame(bytes.fromhex(HELLO)[:19])))
        self.assertEqual(text, "1 7.000005 refused hello 1 Short\ndone records 1 read 0 refused 1\n")
        other = bytes(12) + b"\x08\x00" + bytes(40)
        self.assertEqual(dump(capture(other)), ("done records 1 read 0 refused 0\n", 0))
        self.assertEqual(dump(capture(other)[:-1]), ("refused record 1 5 CutRecord\n", 8))
        self.assertEqual(dump(b"\xd4\xc3\xb2\xa2"), ("refused record 0 1 Magic\n", 8))
        self.assertEqual(dump(b""), ("refused record 0 4 CutHeader\n", 8))
        done = subprocess.run([PROGRAM, "x"], stdin=subprocess.DEVNULL, capture_output=True, text=True)
        self.assertEqual((done.stdout, done.returncode), ("usage: isis_dump < CAPTURE\n", 2))

    def test_faults_of_input_and_output(self):
        """A folder can't be read; a full device accepts nothing."""
        with tempfile.TemporaryDirectory() as folder:
            there = os.open(folder, os.O_RDONLY)
            done = subprocess.run([PROGRAM], stdin=there, capture_output=True)
            os.close(there)
        self.assertEqual((done.stdout, done.returncode), (b"", 5))
        if os.path.exists("/dev/full"):
            with open("/dev/full", "wb") as full:
                done = subprocess.run([PROGRAM], input=read(CAPTURES[0]), stdout=full)
            self.assertEqual(done.returncode, 6)

    def test_stored_output(self):
        """What the gate runs it on is the sample capture's octets."""
        crate = os.path.join(CRATES, "isis_dump")
        self.assertEqual(read(os.path.join(crate, "stdin")), read(CAPTURES[-1]))
        self.assertEqual(dump(read(os.path.join(crate, "stdin"))), (read(os.path.join(crate, "stdout")).decode(), 0))


if __name__ == "__main__":
    unittest.main()
