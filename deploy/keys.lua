-- Keys of tables for texts that clients choose: a text's key is its SipHash-1-3, by a secret that is drawn at each
-- start. So nobody foresees which keys collide in a table. Two texts have the same key by chance alone, of 1 in 2^64.

local random = io.open("/dev/urandom", "rb")
local FIRST, SECOND = string.unpack("<i8i8", random:read(16))
random:close()

-- how what is left behind whole words is read
local RESTS = {"<I1", "<I2", "<I3", "<I4", "<I5", "<I6", "<I7"}

local function round(a, b, c, d)
  a, c = a + b, c + d
  b, d = (b << 13 | b >> 51) ~ a, (d << 16 | d >> 48) ~ c
  a = (a << 32 | a >> 32) + d
  c = c + b
  d, b = (d << 21 | d >> 43) ~ a, (b << 17 | b >> 47) ~ c
  return a, b, c << 32 | c >> 32, d
end

return function(text)
  local a, b = FIRST ~ 0x736f6d6570736575, SECOND ~ 0x646f72616e646f6d
  local c, d = FIRST ~ 0x6c7967656e657261, SECOND ~ 0x7465646279746573
  local whole = #text - #text % 8
  for at = 1, whole, 8 do
    local word = string.unpack("<i8", text, at)
    a, b, c, d = round(a, b, c, d ~ word)
    a = a ~ word
  end
  local word = #text << 56
  if whole < #text then word = word | string.unpack(RESTS[#text - whole], text, whole + 1) end
  a, b, c, d = round(a, b, c, d ~ word)
  a, c = a ~ word, c ~ 0xff
  for _ = 1, 3 do a, b, c, d = round(a, b, c, d) end
  return a ~ b ~ c ~ d
end
