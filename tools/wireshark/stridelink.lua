-- Shows the frames of a stridelink uplink in Wireshark and tshark: those of version 1 and of version 2, also in one
-- connection.
--
-- A connection is recognised at the first segment that begins with a whole header, or is named by its port: by 'Decode
-- As', or with tshark -X lua_script:stridelink.lua -d tcp.port==7003,stridelink. Filters are stridelink.version,
-- stridelink.tariff, stridelink.flow, stridelink.seq, stridelink.length, stridelink.payload, and stridelink.bad: the
-- place of the first field that no frame has. Behind such a field nothing says where a next frame begins, so the rest
-- of its bytes is not taken apart.

local stridelink = Proto("stridelink", "stridelink uplink")

local shown = {
  mark = ProtoField.uint8("stridelink.mark", "Mark", base.HEX),
  version = ProtoField.uint8("stridelink.version", "Version", base.DEC),
  tariff = ProtoField.uint8("stridelink.tariff", "Tariff", base.DEC),
  flow = ProtoField.uint32("stridelink.flow", "Flow", base.DEC),
  seq = ProtoField.uint64("stridelink.seq", "Sequence number", base.DEC),
  length = ProtoField.uint16("stridelink.length", "Payload length", base.DEC),
  payload = ProtoField.bytes("stridelink.payload", "Payload"),
  bad = ProtoField.uint8("stridelink.bad", "Place of the bad field", base.DEC),
}
stridelink.fields = shown

local bad_field = ProtoExpert.new("stridelink.malformed", "no frame has this field", expert.group.MALFORMED,
  expert.severity.ERROR)
stridelink.experts = { bad_field }

-- The header of each version: where its fields begin, how many bytes they have, and their ranges. All versions have
-- their first two fields at the same places. A number of eight bytes is rounded where it is compared, which is no
-- matter at the ends of its range.
local HEADERS = {
  [1] = {
    size = 12,
    { name = "mark", at = 0, size = 1, least = 0x4c, most = 0x4c },
    { name = "version", at = 1, size = 1, least = 1, most = 1 },
    { name = "flow", at = 2, size = 4, least = 1, most = 0xffffffff },
    { name = "seq", at = 6, size = 4, least = 1, most = 0xffffffff },
    { name = "length", at = 10, size = 2, least = 1, most = 1490 },
  },
  [2] = {
    size = 17,
    { name = "mark", at = 0, size = 1, least = 0x4c, most = 0x4c },
    { name = "version", at = 1, size = 1, least = 2, most = 2 },
    { name = "tariff", at = 2, size = 1, least = 1, most = 8 },
    { name = "flow", at = 3, size = 4, least = 1, most = 0xffffffff },
    { name = "seq", at = 7, size = 8, least = 1, most = 2 ^ 64 },
    { name = "length", at = 15, size = 2, least = 1, most = 9000 },
  },
}

local function header_at(bytes, offset)
  local is_told = bytes:len() - offset > 1
  return is_told and HEADERS[bytes(offset + 1, 1):uint()] or HEADERS[1]
end

-- Whether some value of the field begins with these of its bytes.
local function may_begin(field, bytes)
  local room = 256 ^ (field.size - bytes:len())
  local least = bytes:uint64():tonumber() * room
  return least + room - 1 >= field.least and least <= field.most
end

-- What the bytes from this offset on begin with: 'frame', its header and its size; 'more', and how many bytes are
-- missing at least; or 'bad', its header and the first field that no frame has, also where only a part of it is there.
local function read_frame(bytes, offset)
  local header = header_at(bytes, offset)
  local there = bytes:len() - offset
  for _, field in ipairs(header) do
    local count = math.min(field.size, there - field.at)
    if count <= 0 then break end
    if not may_begin(field, bytes(offset + field.at, count)) then return "bad", header, field end
  end
  if there < header.size then return "more", header.size - there end
  local length = header[#header]
  local size = header.size + bytes(offset + length.at, length.size):uint()
  if there < size then return "more", size - there end
  return "frame", header, size
end

local function show_fields(tree, bytes, offset, header)
  for _, field in ipairs(header) do
    tree:add(shown[field.name], bytes(offset + field.at, field.size))
  end
end

local function value(bytes, offset, header, name)
  for _, field in ipairs(header) do
    if field.name == name then return tostring(bytes(offset + field.at, field.size):uint64()) end
  end
end

local function show_frame(tree, bytes, offset, header, size)
  local title = string.format("stridelink frame: flow %s, packet %s, %u bytes of payload",
    value(bytes, offset, header, "flow"), value(bytes, offset, header, "seq"), size - header.size)
  local frame = tree:add(stridelink, bytes(offset, size), title)
  show_fields(frame, bytes, offset, header)
  frame:add(shown.payload, bytes(offset + header.size, size - header.size))
  return title
end

local function show_bad(tree, bytes, offset, header, field)
  local title = string.format("no stridelink frame: bad %s at byte %u", field.name, field.at)
  local rest = tree:add(stridelink, bytes(offset), title)
  for _, earlier in ipairs(header) do
    if earlier.at < field.at then rest:add(shown[earlier.name], bytes(offset + earlier.at, earlier.size)) end
  end
  local count = math.min(field.size, bytes:len() - offset - field.at)
  local place = rest:add(shown.bad, bytes(offset + field.at, count), field.at)
  place:add_proto_expert_info(bad_field)
  return title
end

-- Asks for the next segment where a frame is in part. How much is missing is known once its header is there.
local function ask_for_more(packet, offset, missing, is_size_known)
  packet.desegment_offset = offset
  packet.desegment_len = is_size_known and missing or DESEGMENT_ONE_MORE_SEGMENT
end

function stridelink.dissector(bytes, packet, tree)
  packet.cols.protocol = "stridelink"
  local offset, titles = 0, {}
  while offset < bytes:len() do
    local kind, first, second = read_frame(bytes, offset)
    if kind == "frame" then
      titles[#titles + 1] = show_frame(tree, bytes, offset, first, second)
      offset = offset + second
    elseif kind == "bad" then
      titles[#titles + 1] = show_bad(tree, bytes, offset, first, second)
      offset = bytes:len()
    else
      ask_for_more(packet, offset, first, bytes:len() - offset >= header_at(bytes, offset).size)
      break
    end
  end
  if #titles > 0 then packet.cols.info = table.concat(titles, "; ") end
  return bytes:len()
end

-- Takes a connection at a segment that begins with the header of a frame.
local function is_uplink(bytes, packet, tree)
  local is_whole = bytes:len() >= header_at(bytes, 0).size
  if not is_whole or read_frame(bytes, 0) == "bad" then return false end
  packet.conversation = stridelink
  stridelink.dissector(bytes, packet, tree)
  return true
end

DissectorTable.get("tcp.port"):add_for_decode_as(stridelink)
stridelink:register_heuristic("tcp", is_uplink)
