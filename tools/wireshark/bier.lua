-- BIER (RFC 8296) for Wireshark and tshark.
--
--   wireshark -X lua_script:tools/wireshark/bier.lua CAPTURE
--   tshark -X lua_script:tools/wireshark/bier.lua -r CAPTURE -Y 'bier.bp == 3'
--
-- Or put this file into the folder of personal Lua plugins (Help, About Wireshark, Folders).
--
-- A BIER header is in a frame of type 0xAB37, or begins with the last label of an MPLS stack that is followed by the four bits 5.
-- Both are found in Ethernet and in GRE.

-- Wireshark 4.4 has a dissector of that name, which has no field for each position; this one is in its place.
local is_free, bier = pcall(Proto, "bier", "Bit Index Explicit Replication")
if not is_free then
    bier = Proto("bier_bits", "BIER by position")
end
local stack = Proto("bier_mpls", "MPLS with BIER behind it")
local after = Proto("bier_after_label", "BIER behind a label")

local OCTETS = { 8, 16, 32, 64, 128, 256, 512 } -- of a BitString, by its BSL code
local PROTOCOLS = {
    [0] = "reserved",
    [1] = "MPLS, downstream-assigned label",
    [2] = "MPLS, upstream-assigned label",
    [3] = "Ethernet",
    [4] = "IPv4",
    [5] = "OAM",
    [6] = "IPv6",
}
local HEADER = 12 -- octets before the BitString
local DEEPEST_STACK = 8 -- as in `bier_domain headers`

-- The words of the header: each field with its filter name, its title and its bits.
local WORDS = {
    {
        { "bift_id", "BIFT-id", 0xfffff000 },
        { "tc", "Traffic class", 0x00000e00 },
        { "s", "Bottom of stack", 0x00000100 },
        { "ttl", "Time to live", 0x000000ff },
    },
    {
        { "nibble", "Nibble", 0xf0000000 },
        { "version", "Version", 0x0f000000 },
        { "bsl_code", "BSL code", 0x00f00000 },
        { "entropy", "Entropy", 0x000fffff },
    },
    {
        { "oam", "OAM", 0xc0000000 },
        { "rsv", "Reserved", 0x30000000 },
        { "dscp", "DSCP", 0x0fc00000 },
        { "proto", "Next protocol", 0x003f0000, PROTOCOLS },
        { "bfir_id", "BFIR-id", 0x0000ffff },
    },
}

local unpack = table.unpack or unpack -- by the version of Lua

local fields = {
    bsl = ProtoField.uint16("bier.bsl", "BitString length", base.DEC),
    bitstring = ProtoField.bytes("bier.bitstring", "BitString"),
    bp = ProtoField.uint16("bier.bp", "Bit position", base.DEC),
    fault = ProtoField.string("bier.fault", "Fault"),
}
for _, word in ipairs(WORDS) do
    for _, field in ipairs(word) do
        local name, title, mask, values = unpack(field)
        fields[name] = ProtoField.uint32("bier." .. name, title, base.DEC, values, mask)
    end
end
bier.fields = fields

-- What can be wrong with a header, by its names in `bier_domain headers`. An error is shown in red.
local FAULTS = {
    Short = "The octets end before the BitString does that the BSL field tells",
    Version = "The version isn't 0",
    BslCode = "The BSL field names no length",
}
local experts = {}
for name, text in pairs(FAULTS) do
    experts[name] = ProtoExpert.new("bier.fault." .. name:lower(), text, expert.group.PROTOCOL, expert.severity.ERROR)
end
experts.Payload =
    ProtoExpert.new("bier.payload.other", "The payload isn't of the next protocol", expert.group.PROTOCOL, expert.severity.NOTE)
bier.experts = experts

-- Another dissector may find a frame malformed, and shows that in the tree; ours must go on.
local function call(name, tvb, pinfo, tree)
    local known, dissector = pcall(Dissector.get, name)
    if known and dissector then
        pcall(dissector.call, dissector, tvb, pinfo, tree)
    end
end

-- The next protocol's dissector, where the payload begins like a packet of that protocol.

local function begins_as_ip(tvb, version, shortest)
    return tvb:len() >= shortest and tvb(0, 1):bitfield(0, 4) == version
end

-- The offset of the last label of a stack; nil where the stack doesn't end.
local function bottom_of_stack(tvb)
    for place = 0, DEEPEST_STACK - 1 do
        local at = 4 * place
        if at + 4 > tvb:len() then
            return nil
        end
        if tvb(at + 2, 1):bitfield(7, 1) == 1 then
            return at
        end
    end
    return nil
end

local function begins_as_ethernet(tvb)
    if tvb:len() < 14 then
        return false
    end
    local kind = tvb(12, 2):uint()
    return kind <= 1500 or DissectorTable.get("ethertype"):get_dissector(kind) ~= nil
end

local function next_dissector(proto, tvb)
    if proto == 4 and begins_as_ip(tvb, 4, 20) then
        return "ip"
    elseif proto == 6 and begins_as_ip(tvb, 6, 40) then
        return "ipv6"
    elseif proto == 3 and begins_as_ethernet(tvb) then
        return "eth_withoutfcs"
    elseif proto >= 1 and proto <= 3 and bottom_of_stack(tvb) then
        -- Protocol 3 is Ethernet by the registry; some senders put labels there.
        return "mpls"
    end
    return nil
end

local function add_payload(proto, tvb, pinfo, root, item)
    if tvb:len() == 0 then
        return
    end
    local name = next_dissector(proto, tvb)
    if name == nil and PROTOCOLS[proto] ~= nil and proto ~= 0 and proto ~= 5 then
        item:add_proto_expert_info(experts.Payload)
    end
    call(name or "data", tvb, pinfo, root)
end

-- The fields of one word of the header, whose octets are `range`.
local function add_word(tree, place, range)
    for _, field in ipairs(WORDS[place]) do
        tree:add(fields[field[1]], range)
    end
end

local function add_fault(tree, range, name)
    tree:add(fields.fault, range, name):set_generated():add_proto_expert_info(experts[name])
end

-- One item for each bit that is set. The highest position comes first in the octets.
local function add_positions(tree, range)
    local places, length = {}, range:len()
    for at = length - 1, 0, -1 do
        local octet = range(at, 1)
        if octet:uint() ~= 0 then
            for bit = 0, 7 do
                if octet:bitfield(7 - bit, 1) == 1 then
                    local position = (length - 1 - at) * 8 + bit + 1
                    tree:add(fields.bp, octet, position):set_generated()
                    places[#places + 1] = position
                end
            end
        end
    end
    return #places == 0 and "-" or table.concat(places, ",")
end

-- The first rule that a header breaks, nil where it can be read; and the length of the BitString, where the BSL field has one.
-- `rest` is what follows the first word.
local function fault_of(rest)
    if rest:len() < HEADER - 4 then
        return "Short", nil
    elseif rest(0, 1):bitfield(4, 4) ~= 0 then
        return "Version", nil
    end
    local octets = OCTETS[rest(1, 1):bitfield(0, 4)]
    if octets == nil then
        return "BslCode", nil
    elseif rest:len() < HEADER - 4 + octets then
        return "Short", octets
    end
    return nil, octets
end

local function add_words(tree, first, rest)
    add_word(tree, 1, first)
    if rest and rest:len() >= 4 then
        add_word(tree, 2, rest(0, 4))
    end
    if rest and rest:len() >= 8 then
        add_word(tree, 3, rest(4, 4))
    end
end

-- Shows a header that can't be read, with the error in red.
local function add_broken(tree, first, rest, fault, octets, pinfo)
    local range = first
    if octets then
        range = rest(1, 1)
        tree:add(fields.bsl, range, octets * 8):append_text(" bits")
    end
    add_fault(tree, range, fault)
    tree:append_text(", " .. FAULTS[fault])
    pinfo.cols.info = "BIER, " .. FAULTS[fault]
end

-- A header: `first` is its first word as a range, `rest` the octets after it or nil where there are none, `tree` its item.
local function dissect_header(first, rest, pinfo, root, tree)
    pinfo.cols.protocol = "BIER"
    add_words(tree, first, rest)
    local fault, octets = "Short", nil
    if rest then
        fault, octets = fault_of(rest)
    end
    if fault then
        return add_broken(tree, first, rest, fault, octets, pinfo)
    end
    tree:add(fields.bsl, rest(1, 1), octets * 8):append_text(" bits")
    local bits = rest(HEADER - 4, octets)
    local places = add_positions(tree:add(fields.bitstring, bits), bits)
    local text = ("BIFT-id %d, TTL %d, %d bits, to %s"):format(first:bitfield(0, 20), first:bitfield(24, 8), octets * 8, places)
    tree:append_text(", " .. text)
    pinfo.cols.info = "BIER " .. text
    local from = HEADER - 4 + octets
    if rest:len() > from then
        add_payload(rest(5, 1):bitfield(2, 6), rest(from):tvb(), pinfo, root, tree)
    end
end

-- How many of the octets are the header's, so that its item marks only these.
local function header_length(rest)
    local fault, octets = fault_of(rest)
    return fault and rest:len() or HEADER - 4 + octets
end

-- A frame of type 0xAB37.
function bier.dissector(tvb, pinfo, root)
    if tvb:len() == 0 then
        return 0
    elseif tvb:len() < 4 then
        pinfo.cols.protocol = "BIER"
        add_fault(root:add(bier, tvb()), tvb(), "Short")
        return tvb:len()
    end
    local rest = tvb:len() > 4 and tvb(4):tvb() or nil
    local tree = root:add(bier, tvb(0, rest and 4 + header_length(rest) or 4))
    dissect_header(tvb(0, 4), rest, pinfo, root, tree)
    return tvb:len()
end

-- After labels. Wireshark's own dissector of MPLS shows the stack, and hands the rest to the dissector that is bound to the last
-- label: during this call, to ours.

local last_label -- the last label of the stack that is being dissected, as a range

function after.dissector(tvb, pinfo, root)
    if last_label == nil or tvb:len() == 0 then
        return 0
    end
    local tree = root:add(bier, tvb(0, header_length(tvb)))
    dissect_header(last_label, tvb, pinfo, root, tree)
    return tvb:len()
end

local labels = DissectorTable.get("mpls.label")

-- A stack that is followed by the four bits 5.
local function is_bier(tvb, bottom)
    return bottom ~= nil and tvb:len() > bottom + 4 and tvb(bottom + 4, 1):bitfield(0, 4) == 5
end

function stack.dissector(tvb, pinfo, root)
    local bottom = bottom_of_stack(tvb)
    if not is_bier(tvb, bottom) then
        call("mpls", tvb, pinfo, root)
        return tvb:len()
    end
    local label, outer, bound = tvb(bottom, 4):bitfield(0, 20), last_label, nil
    bound = labels:get_dissector(label)
    last_label = tvb(bottom, 4)
    labels:add(label, after)
    call("mpls", tvb, pinfo, root)
    labels:remove(label, after)
    if bound then
        labels:add(label, bound)
    end
    last_label = outer
    return tvb:len()
end

for _, name in ipairs({ "ethertype", "gre.proto" }) do
    local known = DissectorTable.get(name)
    known:add(0xab37, bier)
    known:add(0x8847, stack)
    known:add(0x8848, stack)
end
