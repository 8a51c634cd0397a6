-- For Wireshark and tshark: shows of each CAN frame the class, number, node and incarnation that its identifier tells,
-- and of a vector its nodes.
--
--   tshark -X lua_script:tools/canely.lua -r FILE.log
--   tshark -X lua_script:tools/canely.lua -o canely.format:2 -r FILE.log -Y 'canely.class == "accept"'

-- a copy of words.json: .ci/vocabulary.py writes it
local WORDS = {
  classes = {
    { name = "accept", number = 0, kind = "message", service = "tot", remote = true, incarnation = false },
    { name = "rha", number = 1, kind = "cycle", remote = false, incarnation = true },
    { name = "els", number = 2, kind = "life", remote = true, incarnation = true },
    { name = "fda", number = 3, kind = "cycle", remote = true, incarnation = false },
    { name = "join", number = 4, kind = "cycle", remote = true, incarnation = true },
    { name = "leave", number = 5, kind = "cycle", remote = true, incarnation = true },
    { name = "confirm", number = 6, kind = "message", service = "rel", remote = true, incarnation = false },
    { name = "tot", number = 7, kind = "message", service = "tot", remote = false, incarnation = false },
    { name = "rel", number = 8, kind = "message", service = "rel", remote = false, incarnation = false },
    { name = "ed", number = 9, kind = "message", service = "ed", remote = false, incarnation = false },
  },
  formats = { [1] = { nodes = 32, slots = 100000, number = 65535, vector_bytes = 4, number_shift = 9 }, [2] = { nodes = 64, slots = 400000, number = 32767, vector_bytes = 8, number_shift = 10 } },
}
-- the end of the copy

local CLASSES = {}
for _, class in ipairs(WORDS.classes) do
  CLASSES[class.number] = class
end

local canely = Proto("canely", "Canely frame")
canely.prefs.format = Pref.enum("Format of the scenario", 1, "the layout of the identifiers", { { 1, "1", 1 }, { 2, "2", 2 } }, false)

local class_field = ProtoField.string("canely.class", "Class")
local number_field = ProtoField.uint32("canely.number", "Number")
local node_field = ProtoField.uint32("canely.node", "Node")
local incarnation_field = ProtoField.uint32("canely.incarnation", "Incarnation")
local vector_field = ProtoField.string("canely.vector", "Vector")
canely.fields = { class_field, number_field, node_field, incarnation_field, vector_field }

local identifier, payload = Field.new("can.id"), Field.new("data.data")
local is_extended, is_remote, is_error = Field.new("can.flags.xtd"), Field.new("can.flags.rtr"), Field.new("can.flags.err")

-- the nodes that the bytes of a vector stand for, the most significant first
local function nodes_of(bytes)
  local nodes = {}
  for at = bytes:len() - 1, 0, -1 do
    for bit = 0, 7 do
      if math.floor(bytes(at, 1):uint() / 2 ^ bit) % 2 == 1 then
        nodes[#nodes + 1] = 8 * (bytes:len() - 1 - at) + bit
      end
    end
  end
  return table.concat(nodes, ",")
end

-- whether a frame of the class can be so: a frame of something else may have the same identifier
local function is_formed(class, incarnation, remote, data, format)
  local is_whole = class.name ~= "rha" or data and data.len == format.vector_bytes
  return remote == class.remote and (class.incarnation or incarnation == 0) and is_whole
end

function canely.dissector(buffer, packet, tree)
  local id, extended, remote, failed = identifier(), is_extended(), is_remote(), is_error()
  if not id or not extended or not extended.value or failed and failed.value then
    return
  end
  local bits, format, data = id.value, WORDS.formats[canely.prefs.format], payload()
  local class, incarnation = CLASSES[math.floor(bits / 2 ^ 25)], bits % 2 ^ 4
  if not class or not is_formed(class, incarnation, remote ~= nil and remote.value, data, format) then
    return
  end
  local shift = format.number_shift
  local number, node = math.floor(bits / 2 ^ shift) % 2 ^ (25 - shift), math.floor(bits / 2 ^ 4) % 2 ^ (shift - 4)
  local shown = string.format("%s %d%s %d", class.name, node, incarnation > 0 and "/" .. incarnation or "", number)
  local part = tree:add(canely, shown)
  part:add(class_field, class.name)
  part:add(number_field, number)
  part:add(node_field, node)
  part:add(incarnation_field, incarnation)
  if class.name == "rha" then
    local nodes = nodes_of(data.range)
    part:add(vector_field, nodes)
    shown = shown .. ": " .. nodes
  end
  packet.cols.info:prepend(shown .. "  ")
end

register_postdissector(canely)
