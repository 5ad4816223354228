-- Shows packets that `capture` made of a recording: `<time> <bus> <word> <what it is>`, and ` | <the sink after it>` where `a429 trace`
-- says that. The fields need no profile: the line says what the word is, and the rest are bits of any ARINC 429 word.
-- The packets name this dissector themselves, in Wireshark's own header for exported packets, so no link type is taken.
local a429 = Proto("a429", "ARINC 429 word")
local fields = {
    bus = ProtoField.string("a429.bus", "Bus"),
    source = ProtoField.string("a429.src", "Source"),
    destination = ProtoField.string("a429.dst", "Destination"),
    word = ProtoField.uint32("a429.word", "Word", base.HEX),
    label = ProtoField.string("a429.label", "Label"),
    sdi = ProtoField.uint8("a429.sdi", "SDI"),
    ssm = ProtoField.uint8("a429.ssm", "SSM"),
    form = ProtoField.string("a429.form", "Form"),
    sink = ProtoField.string("a429.sink", "Sink after it"),
    allowed = ProtoField.string("a429.allowed", "Allowed in its place"),
}
a429.fields = fields

local experts = {
    parity = ProtoExpert.new("a429.wrong_parity", "Wrong parity", expert.group.CHECKSUM, expert.severity.WARN),
    refused = ProtoExpert.new("a429.refused", "No run records this word here", expert.group.SEQUENCE, expert.severity.ERROR),
    no_form = ProtoExpert.new("a429.no_form", "No transfer records this word", expert.group.PROTOCOL, expert.severity.ERROR),
}
a429.experts = experts

-- The units at the two ends of a bus: the sender first.
local units = { A = { "source", "sink" }, B = { "sink", "source" } }

-- The number in the bits of a word from `first` on, `count` of them. The lowest comes first, and bit 1 is the word's lowest.
local function bits_of(word, first, count)
    return math.floor(word / 2 ^ (first - 1) % 2 ^ count)
end

-- The label of a word in three octal digits. Bit 1 is its highest bit.
local function label_of(word)
    local label = 0
    for bit = 1, 8 do
        label = label * 2 + bits_of(word, bit, 1)
    end
    return string.format("%03o", label)
end

function a429.dissector(packet, info, tree)
    local text = packet():string()
    local before, bus, digits, rest = text:match("^(%d+ )([AB]) (%x%x%x%x%x%x%x%x) (.+)$")
    if not bus then
        return 0
    end
    local form, sink = rest:match("^(.-) | (.+)$")
    form = form or rest
    local word = tonumber(digits, 16)
    local source, destination = table.unpack(units[bus])
    local at_bus, at_word = packet(#before, 1), packet(#before + 2, 8)
    local at_form = packet(#before + 11, #form)

    local subtree = tree:add(a429, packet(), "ARINC 429 word " .. digits .. ", bus " .. bus .. ": " .. form)
    subtree:add(fields.bus, at_bus, bus)
    subtree:add(fields.source, at_bus, source)
    subtree:add(fields.destination, at_bus, destination)
    subtree:add(fields.word, at_word, word)
    subtree:add(fields.label, at_word, label_of(word))
    subtree:add(fields.sdi, at_word, bits_of(word, 9, 2))
    subtree:add(fields.ssm, at_word, bits_of(word, 30, 2))
    local shown = subtree:add(fields.form, at_form, form)
    if form:find("^free parity") then
        shown:add_proto_expert_info(experts.parity)
    elseif form:find("^no form") then
        shown:add_proto_expert_info(experts.no_form)
    end
    if sink then
        local at_sink = packet(#before + 14 + #form)
        local allowed = sink:match("^refused, allowed: (.+)$")
        if allowed then
            subtree:add(fields.allowed, at_sink, allowed):add_proto_expert_info(experts.refused)
        else
            subtree:add(fields.sink, at_sink, sink)
        end
    end

    info.cols.src = source
    info.cols.dst = destination
    info.cols.protocol = "A429"
    info.cols.info = text:sub(#before + 1)
    return packet:len()
end
