"use strict";
// The fields of a frame. Each is {from, to, name, value, level}: its octets (to is exclusive), and how deep it is nested. Octets are
// a Uint8Array.

const PDU_NAMES = {
  17: "point-to-point hello",
  18: "LSP, level 1", 20: "LSP, level 2",
  24: "CSNP, level 1", 25: "CSNP, level 2",
  26: "PSNP, level 1", 27: "PSNP, level 2",
};
const NEXT_PROTOCOLS = { 1: "MPLS", 2: "MPLS", 3: "Ethernet", 4: "IPv4", 5: "OAM", 6: "IPv6" };
const ADJACENCY_STATES = ["Up", "Initializing", "Down"];
const BIT_LENGTHS = [0, 64, 128, 256, 512, 1024, 2048, 4096];

class Dissection {
  constructor(octets, names) {
    this.octets = octets;
    this.names = names; // of routers, by system identifier as twelve hexadecimal digits
    this.fields = [];
    this.summary = "";
  }

  number(at, count) {
    let value = 0;
    for (let i = 0; i < count; i++) value = value * 256 + this.octets[at + i];
    return value;
  }

  hex(at, count, joint = "") {
    return Array.from(this.octets.subarray(at, at + count), (octet) => octet.toString(16).padStart(2, "0")).join(joint);
  }

  add(from, to, name, value, level = 1) {
    this.fields.push({ from, to, name, value: String(value), level });
  }

  head(from, to, name) {
    this.add(from, to, name, "", 0);
  }

  system(at) {
    const digits = this.hex(at, 6);
    return this.names[digits] || digits.replace(/(....)(....)(....)/, "$1.$2.$3");
  }

  lspId(at) {
    return `${this.system(at)}.${this.hex(at + 6, 1)}-${this.hex(at + 7, 1)}`;
  }

  address(at) {
    return Array.from(this.octets.subarray(at, at + 4)).join(".");
  }

  rest(at, name = "Payload") {
    if (at < this.octets.length) this.add(at, this.octets.length, name, this.hex(at, this.octets.length - at), 0);
  }

  // Whether that many octets are there; where they aren't, what is there is shown undissected.
  has(at, count, end = this.octets.length) {
    if (at + count <= end) return true;
    this.add(at, end, "Cut short", this.hex(at, end - at), 0);
    return false;
  }
}

function dissect(octets, names) {
  const it = new Dissection(octets, names);
  if (!it.has(0, 14)) return it;
  it.head(0, 14, "Ethernet");
  it.add(0, 6, "Destination", it.hex(0, 6, ":"));
  it.add(6, 12, "Source", it.hex(6, 6, ":"));
  const kind = it.number(12, 2);
  if (kind <= 1500) {
    it.add(12, 14, "Length", kind);
    isisFrame(it, 14, Math.min(14 + kind, octets.length));
  } else {
    it.add(12, 14, "Type", "0x" + it.hex(12, 2));
    byType(it, kind, 14);
  }
  return it;
}

function byType(it, kind, at) {
  if (kind === 0x8847) labelStack(it, at);
  else if (kind === 0xab37) bierHeader(it, at, false);
  else if (kind === 0x0800) ipv4(it, at);
  else it.rest(at);
}

function ipv4(it, at) {
  if (!it.has(at, 20)) return;
  it.head(at, at + 20, "IPv4");
  it.add(at + 2, at + 4, "Total length", it.number(at + 2, 2));
  it.add(at + 8, at + 9, "TTL", it.octets[at + 8]);
  it.add(at + 9, at + 10, "Protocol", it.octets[at + 9] === 47 ? "47, GRE" : it.octets[at + 9]);
  it.add(at + 10, at + 12, "Checksum", it.hex(at + 10, 2));
  it.add(at + 12, at + 16, "Source", it.address(at + 12));
  it.add(at + 16, at + 20, "Destination", it.address(at + 16));
  const inside = at + 20;
  if (it.octets[at] !== 0x45 || it.octets[at + 9] !== 47) return it.rest(inside);
  if (!it.has(inside, 4)) return;
  it.tunnel = { destination: it.address(at + 16) };
  it.head(inside, inside + 4, "GRE");
  it.add(inside + 2, inside + 4, "Type", "0x" + it.hex(inside + 2, 2));
  byType(it, it.number(inside + 2, 2), inside + 4);
}

function labelStack(it, at) {
  while (it.has(at, 4)) {
    const isLast = it.octets[at + 2] & 1;
    if (isLast && (it.octets[at + 4] || 0) >> 4 === 5) return bierHeader(it, at, true);
    it.head(at, at + 4, "MPLS label");
    it.add(at, at + 3, "Label", it.number(at, 3) >> 4);
    it.add(at + 3, at + 4, "TTL", it.octets[at + 3]);
    at += 4;
    if (isLast) return it.rest(at);
  }
}

function bierHeader(it, at, isLabel) {
  if (!it.has(at, 12)) return;
  const code = it.octets[at + 5] >> 4;
  const bits = BIT_LENGTHS[code] || 0;
  it.head(at, at + 12 + bits / 8, "BIER");
  it.add(at, at + 3, isLabel ? "BIFT-id (label)" : "BIFT-id", it.number(at, 3) >> 4);
  it.add(at + 2, at + 3, "TC, S", `${(it.octets[at + 2] >> 1) & 7}, ${it.octets[at + 2] & 1}`);
  it.add(at + 3, at + 4, "TTL", it.octets[at + 3]);
  it.add(at + 4, at + 5, "Nibble, version", `${it.octets[at + 4] >> 4}, ${it.octets[at + 4] & 15}`);
  it.add(at + 5, at + 6, "BSL", bits ? `${code}, ${bits} bits` : `${code}, no length`);
  it.add(at + 5, at + 8, "Entropy", it.number(at + 5, 3) & 0xfffff);
  const third = it.number(at + 8, 2);
  it.add(at + 8, at + 10, "OAM, Rsv, DSCP", `${third >> 14}, ${(third >> 12) & 3}, ${(third >> 6) & 63}`);
  const protocol = it.octets[at + 9] & 63;
  it.add(at + 9, at + 10, "Next protocol", `${protocol}${NEXT_PROTOCOLS[protocol] ? ", " + NEXT_PROTOCOLS[protocol] : ""}`);
  it.add(at + 10, at + 12, "BFIR-id", it.number(at + 10, 2));
  if (!bits || !it.has(at + 12, bits / 8)) return;
  const places = positions(it.octets.subarray(at + 12, at + 12 + bits / 8));
  it.add(at + 12, at + 12 + bits / 8, "BitString", `positions ${places.join(", ") || "none"}`);
  it.bier = { ttl: it.octets[at + 3], bift: it.number(at, 3) >> 4, bits, places };
  it.rest(at + 12 + bits / 8);
}

// The bit positions that are set in a BitString, from 1; the highest comes first in the octets.
function positions(octets) {
  const found = [];
  for (let at = octets.length - 1; at >= 0; at--) {
    for (let bit = 0; bit < 8; bit++) {
      if (octets[at] & (1 << bit)) found.push((octets.length - 1 - at) * 8 + bit + 1);
    }
  }
  return found;
}

function isisFrame(it, at, end) {
  if (!it.has(at, 11, end)) return;
  it.head(at, at + 3, "LLC");
  const pdu = at + 3;
  const type = it.octets[pdu + 4] & 31;
  const name = PDU_NAMES[type];
  it.head(pdu, end, "IS-IS " + (name || `type ${type}`));
  it.summary = name ? name.slice(0, 4).replace(",", "") : "IS-IS";
  if (type === 17) hello(it, pdu, end);
  else if (type === 18 || type === 20) lsp(it, pdu, end);
  else if (type === 24 || type === 25) csnp(it, pdu, end);
  else if (type === 26 || type === 27) psnp(it, pdu, end);
  else it.rest(pdu + 8, "Octets");
}

function hello(it, at, end) {
  if (!it.has(at, 20, end)) return;
  it.add(at + 8, at + 9, "Circuit type", it.octets[at + 8]);
  it.add(at + 9, at + 15, "Source", it.system(at + 9));
  it.add(at + 15, at + 17, "Holding time", it.number(at + 15, 2));
  it.add(at + 17, at + 19, "PDU length", it.number(at + 17, 2));
  it.add(at + 19, at + 20, "Local circuit ID", it.octets[at + 19]);
  it.summary = "hello";
  tlvs(it, at + 20, end);
}

// The TLV of a three-way handshake (RFC 5303).
function adjacency(it, from, to) {
  const state = ADJACENCY_STATES[it.octets[from]] || it.octets[from];
  it.add(from - 2, to, "TLV 240, adjacency", state);
  if (from + 5 <= to) it.add(from + 1, from + 5, "Circuit", it.number(from + 1, 4), 2);
  it.summary = `hello, ${state}`;
  if (from + 15 > to) return;
  it.add(from + 5, from + 11, "Neighbor", it.system(from + 5), 2);
  it.add(from + 11, from + 15, "Neighbor's circuit", it.number(from + 11, 4), 2);
  it.summary += `, hears ${it.system(from + 5)}`;
}

function lsp(it, at, end) {
  if (!it.has(at, 27, end)) return;
  it.add(at + 8, at + 10, "PDU length", it.number(at + 8, 2));
  it.add(at + 10, at + 12, "Lifetime", it.number(at + 10, 2));
  it.add(at + 12, at + 20, "LSP ID", it.lspId(at + 12));
  it.add(at + 20, at + 24, "Sequence", it.number(at + 20, 4));
  it.add(at + 24, at + 26, "Checksum", it.hex(at + 24, 2));
  it.add(at + 26, at + 27, "Flags", (it.octets[at + 26] & 4 ? "overload, " : "") + "0x" + it.hex(at + 26, 1));
  it.summary = `LSP ${it.lspId(at + 12)} seq ${it.number(at + 20, 4)}${it.number(at + 10, 2) ? "" : " purged"}`;
  tlvs(it, at + 27, end);
}

function csnp(it, at, end) {
  if (!it.has(at, 33, end)) return;
  it.add(at + 8, at + 10, "PDU length", it.number(at + 8, 2));
  it.add(at + 10, at + 17, "Source", it.system(at + 10));
  it.add(at + 17, at + 25, "Start", it.lspId(at + 17));
  it.add(at + 25, at + 33, "End", it.lspId(at + 25));
  it.summary = `CSNP, ${tlvs(it, at + 33, end)} entries`;
}

function psnp(it, at, end) {
  if (!it.has(at, 17, end)) return;
  it.add(at + 8, at + 10, "PDU length", it.number(at + 8, 2));
  it.add(at + 10, at + 17, "Source", it.system(at + 10));
  it.summary = `PSNP, ${tlvs(it, at + 17, end)} entries`;
}

// Reads the TLVs; the number of their LSP entries.
function tlvs(it, at, end) {
  let entries = 0;
  while (at + 2 <= end) {
    const code = it.octets[at], length = it.octets[at + 1], from = at + 2, to = from + length;
    if (to > end) break;
    entries += tlv(it, code, from, to);
    at = to;
  }
  if (at < end) it.add(at, end, "Cut short", it.hex(at, end - at), 1);
  return entries;
}

function tlv(it, code, from, to) {
  if (code === 9) return lspEntries(it, from, to);
  if (code === 22) reaches(it, from, to);
  else if (code === 135) prefixes(it, from, to);
  else if (code === 137) it.add(from - 2, to, "TLV 137, name", String.fromCharCode(...it.octets.subarray(from, to)));
  else if (code === 1) it.add(from - 2, to, "TLV 1, area", it.hex(from + 1, to - from - 1));
  else if (code === 240) adjacency(it, from, to);
  else if (code === 129) it.add(from - 2, to, "TLV 129, protocols", it.hex(from, to - from));
  else it.add(from - 2, to, `TLV ${code}`, it.hex(from, to - from));
  return 0;
}

function lspEntries(it, from, to) {
  it.add(from - 2, to, "TLV 9, entries", (to - from) / 16);
  for (let at = from; at + 16 <= to; at += 16) {
    const text = `sequence ${it.number(at + 10, 4)}, lifetime ${it.number(at, 2)}, checksum ${it.hex(at + 14, 2)}`;
    it.add(at, at + 16, it.lspId(at + 2), text, 2);
  }
  return Math.floor((to - from) / 16);
}

function reaches(it, from, to) {
  it.add(from - 2, to, "TLV 22, neighbors", "");
  for (let at = from; at + 11 <= to; at += 11 + it.octets[at + 10]) {
    it.add(at, at + 11, it.system(at), `metric ${it.number(at + 7, 3)}`, 2);
  }
}

function prefixes(it, from, to) {
  it.add(from - 2, to, "TLV 135, prefixes", "");
  let at = from;
  while (at + 5 <= to) {
    const control = it.octets[at + 4], length = control & 63, octets = Math.ceil(length / 8);
    const written = Array.from({ length: 4 }, (_, i) => (i < octets ? it.octets[at + 5 + i] : 0)).join(".");
    it.add(at, at + 5 + octets, `${written}/${length}`, `metric ${it.number(at, 4)}`, 2);
    at += 5 + octets;
    if (control & 64) {
      const end = Math.min(at + 1 + it.octets[at], to);
      subTlvs(it, at + 1, end);
      at = end;
    }
  }
}

function subTlvs(it, at, end) {
  while (at + 2 <= end && at + 2 + it.octets[at + 1] <= end) {
    const code = it.octets[at], to = at + 2 + it.octets[at + 1];
    if (code === 32 && to - at >= 7) bierInfo(it, at, to);
    else it.add(at, to, `sub-TLV ${code}`, it.hex(at + 2, to - at - 2), 3);
    at = to;
  }
}

function bierInfo(it, at, end) {
  it.add(at, at + 7, "BIER Info", `sub-domain ${it.octets[at + 4]}, BFR-id ${it.number(at + 5, 2)}`, 3);
  at += 7;
  while (at + 2 <= end && at + 2 + it.octets[at + 1] <= end) {
    const to = at + 2 + it.octets[at + 1];
    if (it.octets[at] === 1 && to - at === 6) {
      const bits = BIT_LENGTHS[it.octets[at + 3] >> 4] || "?";
      it.add(at, to, "Labels", `${bits} bits, from ${it.number(at + 3, 3) & 0xfffff}, sets 0 to ${it.octets[at + 2]}`, 4);
    }
    at = to;
  }
}
