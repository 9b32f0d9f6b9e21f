-- Dissects the messages of this profile of SUBSET-026, Baseline 3: 15, 16, 18 and 24 to a train, 136, 146 and 147 from
-- one.
--
--     tshark -X lua_script:ertms.lua -r CAPTURE        wireshark -X lua_script:ertms.lua CAPTURE
--
-- A packet of the capture holds one message: of the link type USER0 (147), or of UDP by "Decode As". Each variable is a
-- field with its name, in small letters behind "ertms.", and has the value that `dispatch decode` has; docs/FORMATS.md
-- has the layouts. A message that `dispatch decode` refuses has the field ertms.refused, with the name of the step, and
-- its fields as far as they can be read.

local ertms = Proto("ertms", "ERTMS messages of emergency stops, restrictions and position reports")

local MESSAGES = {
    [15] = "conditional emergency stop", [16] = "unconditional emergency stop",
    [18] = "revocation of an emergency stop", [24] = "general message", [136] = "train position report",
    [146] = "acknowledgement", [147] = "acknowledgement of an emergency stop",
}
local PACKETS = {
    [0] = "position", [1] = "position by two balise groups",
    [65] = "temporary speed restriction", [66] = "revocation of a temporary speed restriction",
}
local SCALES = {[0] = "10 cm", [1] = "1 m", [2] = "10 m", [3] = "spare"}
local BOTH = {[0] = "reverse", [1] = "nominal", [2] = "both", [3] = "spare"}
local UNKNOWN = {[0] = "reverse", [1] = "nominal", [2] = "unknown", [3] = "spare"}
local ANSWERS = {
    [0] = "conditional stop accepted, end of authority changed", [1] = "conditional stop accepted, no change",
    [2] = "unconditional stop accepted", [3] = "stop rejected",
}
local TO_TRAIN = {[15] = true, [16] = true, [18] = true, [24] = true}

-- each variable: its width in bits, the kind of its field, and what its values mean
local VARIABLES = {
    NID_MESSAGE = {8, "uint8", MESSAGES}, L_MESSAGE = {10, "uint16"}, T_TRAIN = {32, "uint32"}, M_ACK = {1, "uint8"},
    NID_LRBG = {24, "uint32"}, NID_ENGINE = {24, "uint32"}, NID_EM = {4, "uint8"}, Q_SCALE = {2, "uint8", SCALES},
    D_REF = {16, "int16"}, Q_DIR = {2, "uint8", BOTH}, D_EMERGENCYSTOP = {15, "uint16"},
    Q_EMERGENCYSTOP = {2, "uint8", ANSWERS}, NID_PACKET = {8, "uint8", PACKETS}, L_PACKET = {13, "uint16"},
    NID_TSR = {8, "uint8"}, D_TSR = {15, "uint16"}, L_TSR = {15, "uint16"}, Q_FRONT = {1, "uint8"},
    V_TSR = {7, "uint8"}, NID_PRVLRBG = {24, "uint32"}, D_LRBG = {15, "uint16"}, Q_DIRLRBG = {2, "uint8", UNKNOWN},
    Q_DLRBG = {2, "uint8", UNKNOWN}, L_DOUBTOVER = {15, "uint16"}, L_DOUBTUNDER = {15, "uint16"},
    Q_LENGTH = {2, "uint8"}, L_TRAININT = {15, "uint16"}, V_TRAIN = {7, "uint8"}, Q_DIRTRAIN = {2, "uint8"},
    M_MODE = {4, "uint8"}, M_LEVEL = {3, "uint8"}, NID_NTC = {8, "uint8"},
}
local fields = {}
for name, variable in pairs(VARIABLES) do
    variable.field = ProtoField[variable[2]]("ertms." .. name:lower(), name, base.DEC, variable[3])
    table.insert(fields, variable.field)
end
local packet_field = ProtoField.bytes("ertms.packet", "Packet")
local refused_field = ProtoField.string("ertms.refused", "Refused")
table.insert(fields, packet_field)
table.insert(fields, refused_field)
ertms.fields = fields
local refused_info =
    ProtoExpert.new("ertms.refused.expert", "No message of this profile", expert.group.MALFORMED, expert.severity.ERROR)
ertms.experts = {refused_info}

local function width(name)
    return VARIABLES[name][1]
end

-- The value of some bits from a place on, both counted in bits.
local function bits(buffer, at, count)
    return buffer():bitfield(at, count)
end

-- ---- what is refused, step by step

-- Whether a position packet is not there at a place, and where it ends.
local function position_fault(buffer, at, limit)
    if limit - at < 21 then
        return true
    end
    local number, size = bits(buffer, at, 8), bits(buffer, at + 8, 13)
    if number > 1 or size > limit - at then
        return true
    end
    local least = 98 + 24 * number -- up to Q_LENGTH
    if size < least then
        return true
    end
    local integrity = bits(buffer, at + least - 2, 2)
    if integrity == 1 or integrity == 2 then
        least = least + 15
    end
    least = least + 16 -- up to M_LEVEL
    if size < least then
        return true
    end
    if bits(buffer, at + least - 3, 3) == 1 then
        least = least + 8
    end
    return size < least, at + size
end

-- Whether there is a spare value in a position packet.
local function position_is_spare(buffer, at)
    local behind = at + 23 + 24 + 24 * bits(buffer, at, 8) + 15
    return bits(buffer, at + 21, 2) == 3 or bits(buffer, behind, 2) == 3 or bits(buffer, behind + 2, 2) == 3
end

local function from_train_refusal(buffer, at, limit)
    local is_fault, behind = position_fault(buffer, at, limit)
    if is_fault then
        return "Packet"
    end
    while limit - behind >= 8 do
        local left = limit - behind
        if left < 21 then
            return "Packet"
        end
        local size = bits(buffer, behind + 8, 13)
        if size < 21 or size > left then
            return "Packet"
        end
        behind = behind + size
    end
    return position_is_spare(buffer, at) and "Field" or nil
end

local function general_refusal(buffer, at, limit)
    local count, is_spare = 0, false
    repeat
        if limit - at < 23 or count == 100 then
            return "Packet"
        end
        local number, dir, size = bits(buffer, at, 8), bits(buffer, at + 8, 2), bits(buffer, at + 10, 13)
        if size ~= ({[65] = 71, [66] = 31})[number] or size > limit - at then
            return "Packet"
        end
        local restriction_is_spare = number == 65 and (bits(buffer, at + 23, 2) == 3 or bits(buffer, at + 64, 7) > 120)
        is_spare = is_spare or dir == 3 or restriction_is_spare
        at, count = at + size, count + 1
    until limit - at < 8
    return is_spare and "Field" or nil
end

-- The step that refuses the bytes of a message, or nothing: docs/FORMATS.md, Why bytes are refused.
local function refusal(buffer)
    local length = buffer:len()
    if length < 3 or bits(buffer, 8, 10) ~= length then
        return "Length"
    end
    local message, limit = bits(buffer, 0, 8), 8 * length
    if not MESSAGES[message] then
        return "Message"
    end
    local exact = ({[15] = 15, [16] = 10, [18] = 10, [146] = 14})[message]
    if exact and length ~= exact or length < 10 then
        return "Length"
    end
    if message == 15 then
        return (bits(buffer, 79, 2) == 3 or bits(buffer, 97, 2) == 3) and "Field" or nil
    elseif message == 24 then
        return general_refusal(buffer, 75, limit)
    elseif message == 136 then
        return from_train_refusal(buffer, 74, limit)
    elseif message == 147 then
        return from_train_refusal(buffer, 80, limit)
    end
end

-- ---- what is shown

-- Adds variables to a tree, as far as there are bits. Returns their values, and where they end.
local function show(tree, buffer, at, limit, ...)
    local values = {}
    for _, name in ipairs({...}) do
        local count = width(name)
        if at + count > limit then
            return values, limit
        end
        local value = bits(buffer, at, count)
        if name == "D_REF" and value >= 32768 then
            value = value - 65536
        end
        local first, last = math.floor(at / 8), math.floor((at + count - 1) / 8)
        tree:add(VARIABLES[name].field, buffer(first, last - first + 1), value)
        values[name], at = value, at + count
    end
    return values, at
end

local function show_position(tree, buffer, at, limit, number)
    local previous = number == 1 and "NID_PRVLRBG" or nil
    local names = {"Q_SCALE", "NID_LRBG"}
    table.insert(names, previous)
    for _, name in ipairs({"D_LRBG", "Q_DIRLRBG", "Q_DLRBG", "L_DOUBTOVER", "L_DOUBTUNDER", "Q_LENGTH"}) do
        table.insert(names, name)
    end
    local values, behind = show(tree, buffer, at, limit, table.unpack(names))
    if values.Q_LENGTH == 1 or values.Q_LENGTH == 2 then
        _, behind = show(tree, buffer, behind, limit, "L_TRAININT")
    end
    values, behind = show(tree, buffer, behind, limit, "V_TRAIN", "Q_DIRTRAIN", "M_MODE", "M_LEVEL")
    if values.M_LEVEL == 1 then
        show(tree, buffer, behind, limit, "NID_NTC")
    end
end

-- Adds the packets from a place on. Those from a train have no Q_DIR before L_PACKET, and only the first is read.
local function show_packets(tree, buffer, at, limit, is_to_train)
    local least, is_first = is_to_train and 23 or 21, true
    while limit - at >= least do
        local number = bits(buffer, at, 8)
        local size = bits(buffer, at + least - 13, 13)
        local stop = math.min(limit, at + math.max(size, least))
        local first, last = math.floor(at / 8), math.floor((stop - 1) / 8)
        local packet = tree:add(packet_field, buffer(first, last - first + 1))
        packet:set_text(string.format("Packet %d: %s", number, PACKETS[number] or "another"))
        local behind
        if is_to_train then
            _, behind = show(packet, buffer, at, stop, "NID_PACKET", "Q_DIR", "L_PACKET")
        else
            _, behind = show(packet, buffer, at, stop, "NID_PACKET", "L_PACKET")
        end
        if number == 65 and is_to_train then
            show(packet, buffer, behind, stop, "Q_SCALE", "NID_TSR", "D_TSR", "L_TSR", "Q_FRONT", "V_TSR")
        elseif number == 66 and is_to_train then
            show(packet, buffer, behind, stop, "NID_TSR")
        elseif number <= 1 and not is_to_train and is_first then
            show_position(packet, buffer, behind, stop, number)
        end
        at, is_first = stop, false
    end
end

function ertms.dissector(buffer, pinfo, tree)
    local limit = 8 * buffer:len()
    local root = tree:add(ertms, buffer())
    pinfo.cols.protocol = "ERTMS"
    local message = limit >= 8 and bits(buffer, 0, 8) or nil
    local info = string.format("%s %s", message or "no byte", MESSAGES[message] or "")
    local step = refusal(buffer)
    if step then
        root:add(refused_field, step):set_generated()
        root:add_proto_expert_info(refused_info, "refused: " .. step)
        info = info .. ", refused: " .. step
    end
    pinfo.cols.info = info
    if not message then
        return
    end
    if TO_TRAIN[message] then
        local _, behind = show(root, buffer, 0, limit, "NID_MESSAGE", "L_MESSAGE", "T_TRAIN", "M_ACK", "NID_LRBG")
        if message == 24 then
            show_packets(root, buffer, behind, limit, true)
        elseif message == 15 then
            show(root, buffer, behind, limit, "NID_EM", "Q_SCALE", "D_REF", "Q_DIR", "D_EMERGENCYSTOP")
        else
            show(root, buffer, behind, limit, "NID_EM")
        end
        return
    end
    local _, behind = show(root, buffer, 0, limit, "NID_MESSAGE", "L_MESSAGE", "T_TRAIN", "NID_ENGINE")
    if message == 146 then
        show(root, buffer, behind, limit, "T_TRAIN")
    elseif message == 136 then
        show_packets(root, buffer, behind, limit, false)
    elseif message == 147 then
        _, behind = show(root, buffer, behind, limit, "NID_EM", "Q_EMERGENCYSTOP")
        show_packets(root, buffer, behind, limit, false)
    end
end

DissectorTable.get("wtap_encap"):add(wtap.USER0, ertms)
DissectorTable.get("udp.port"):add_for_decode_as(ertms)
