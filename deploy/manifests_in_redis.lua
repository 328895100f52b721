-- Manifests and tags in Redis, which keeps them on disk (redis.conf). manifests.lua says what the functions are for.
-- What changes something is one script, so Redis does all of it or nothing, and nothing comes between; and Redis
-- answers once it is on disk.
--
-- The keys of a manifest, each with NAME@DIGEST behind it: manifest: (type, stamp, size, below, length, shard, and
-- used, the second in which it was put or lost a tag last), body:, tagged: (its tags), names: and above: (the manifests
-- that it names, and those that name it). Of a repository, with NAME behind it: manifests: (their digests), digest: (by
-- tag), tags: (in order). Of all: repositories (their names in order), and held (the bytes of all).

local HOST, PORT = os.getenv("FRONT_REDIS"):match("^(.*):(%d+)$")
local PASSWORD = os.getenv("FRONT_REDIS_PASSWORD")
-- seconds for Redis to answer
local PATIENCE = 10
-- HAProxy 2.6.12 was seen to wait for ever for the rest of a reply that doesn't fit its buffer of 16 KiB: so no reply
-- is longer than about half of that.
local PIECE, LISTED = 8192, 25
local OVERHEAD = 512

local FIND = [[
local digest = ARGV[2]
if ARGV[3] == "tag" then digest = redis.call("HGET", "digest:" .. ARGV[1], ARGV[2]) end
local at = digest and ARGV[1] .. "@" .. digest
if not at or redis.call("EXISTS", "manifest:" .. at) == 0 then return false end
return {digest, unpack(redis.call("HMGET", "manifest:" .. at, "type", "stamp", "length", "shard"))}
]]

local PUT = [[
local name, digest, kind, stamp, size, below, shard, body, tag, most, overhead = unpack(ARGV, 1, 11)
local at = name .. "@" .. digest
for named = 12, #ARGV do
  if redis.call("EXISTS", "manifest:" .. name .. "@" .. ARGV[named]) == 0 then return "unknown" end
end
local more = size - (redis.call("HGET", "manifest:" .. at, "size") or 0)
local old = tag ~= "" and redis.call("HGET", "digest:" .. name, tag)
if tag ~= "" and not old then more = more + #tag + overhead end
if more > 0 and (redis.call("GET", "held") or 0) + more > tonumber(most) then return "full" end
redis.call("INCRBY", "held", more)
local now = redis.call("TIME")[1]
redis.call(
  "HSET", "manifest:" .. at, "type", kind, "stamp", stamp, "size", size, "below", below, "length", #body,
  "shard", shard, "used", now
)
redis.call("SET", "body:" .. at, body)
redis.call("SADD", "manifests:" .. name, digest)
for named = 12, #ARGV do
  redis.call("SADD", "names:" .. at, ARGV[named])
  redis.call("SADD", "above:" .. name .. "@" .. ARGV[named], digest)
end
if tag ~= "" then
  if old then
    redis.call("SREM", "tagged:" .. name .. "@" .. old, tag)
    redis.call("HSET", "manifest:" .. name .. "@" .. old, "used", now)
  end
  redis.call("HSET", "digest:" .. name, tag, digest)
  redis.call("ZADD", "tags:" .. name, 0, tag)
  redis.call("SADD", "tagged:" .. at, tag)
end
redis.call("ZADD", "repositories", 0, name)
return "kept"
]]

local UNTAG = [[
local name, tag, overhead = ARGV[1], ARGV[2], ARGV[3]
local digest = redis.call("HGET", "digest:" .. name, tag)
if not digest then return 0 end
redis.call("HDEL", "digest:" .. name, tag)
redis.call("ZREM", "tags:" .. name, tag)
redis.call("SREM", "tagged:" .. name .. "@" .. digest, tag)
redis.call("HSET", "manifest:" .. name .. "@" .. digest, "used", redis.call("TIME")[1])
redis.call("DECRBY", "held", #tag + overhead)
return 1
]]

local MOVE = [[
local at = "manifest:" .. ARGV[1] .. "@" .. ARGV[2]
if redis.call("HGET", at, "stamp") == ARGV[3] then redis.call("HSET", at, "shard", ARGV[4]) end
return 1
]]

-- Whichever comes, if it is of the shard; else the first that is, a hundred at a time as in drop.lua.
local ANY = [[
local function is_here(digest)
  return redis.call("HGET", "manifest:" .. ARGV[1] .. "@" .. digest, "shard") == ARGV[2]
end
local key, cursor, seen = "manifests:" .. ARGV[1], "0", 0
local any = redis.call("SRANDMEMBER", key)
if not any or is_here(any) then return {any, 1} end
repeat
  local found = redis.call("SSCAN", key, cursor, "COUNT", 100)
  cursor = found[1]
  for _, digest in ipairs(found[2]) do
    if is_here(digest) then return {digest, 1} end
  end
  seen = seen + #found[2]
  if seen > 1000 then
    collectgarbage()
    seen = 0
  end
until cursor == "0"
return {any, 0}
]]

local TAGS = [[
if redis.call("EXISTS", "manifests:" .. ARGV[1]) == 0 then return false end
return redis.call("ZRANGEBYLEX", "tags:" .. ARGV[1], ARGV[2], "+", "LIMIT", 0, ARGV[3])
]]

local REPOSITORIES = [[return redis.call("ZRANGEBYLEX", "repositories", ARGV[1], "+", "LIMIT", 0, ARGV[2])]]

-- A refusal of Redis, or the end of its connection: manifests.lua answers 503.
local function fail(told)
  told = tostring(told)
  core.log(core.err, "redis: " .. told)
  error({status = 503, code = "UNAVAILABLE", message = "the manifests can't be read or written", fault = told}, 0)
end

-- Redis's form of a command: a list of texts, each with its length.
local function written(words)
  local parts = {"*" .. #words .. "\r\n"}
  for _, word in ipairs(words) do
    word = tostring(word)
    parts[#parts + 1] = "$" .. #word .. "\r\n" .. word .. "\r\n"
  end
  return table.concat(parts)
end

-- Why Redis didn't do what was begun at this second: HAProxy tells of a wait that is over as of a connection that ended.
local function reason(begun, told)
  if core.now().sec - begun < PATIENCE - 1 then return told end
  return "doesn't answer within " .. PATIENCE .. " s"
end

local function received(socket, what)
  local begun = core.now().sec
  local text, told = socket:receive(what)
  return text or fail(reason(begun, told))
end

-- One reply: a text, a number, a list, or false for nothing.
local function read(socket)
  local line = received(socket, "*l")
  local kind, rest = line:sub(1, 1), line:sub(2)
  if kind == "+" then return rest end
  if kind == ":" then return tonumber(rest) end
  if kind == "-" then fail(rest) end
  local length = tonumber(rest)
  if length < 0 then return false end
  if kind == "$" then return received(socket, length + 2):sub(1, length) end
  local list = {}
  for at = 1, length do list[at] = read(socket) end
  return list
end

-- Calls a function with what asks Redis over one connection: a command's words give its reply.
local function connected(work)
  local socket, begun = core.tcp(), core.now().sec
  socket:settimeout(PATIENCE)
  if not socket:connect(HOST, tonumber(PORT)) then fail(reason(begun, "nobody listens")) end
  local function ask(...)
    local sent, told = socket:send(written({...}))
    if not sent then fail(told) end
    return read(socket)
  end
  local results = table.pack(pcall(function()
    if PASSWORD then ask("AUTH", PASSWORD) end
    return work(ask)
  end))
  socket:close()
  if not results[1] then error(results[2], 0) end
  return table.unpack(results, 2, results.n)
end

-- The reply to a script with these words.
local function run(script, ...)
  local words = table.pack(...)
  return connected(function(ask) return ask("EVAL", script, 0, table.unpack(words, 1, words.n)) end)
end

-- The text under a key: shorter than it was if it was dropped meanwhile.
local function text_at(ask, key, length)
  local parts = {}
  for from = 0, length - 1, PIECE do parts[#parts + 1] = ask("GETRANGE", key, from, from + PIECE - 1) end
  return table.concat(parts)
end

-- At most `most` of a list that `ask_for` gives in pieces, behind `last`, and whether more follow; nil if there is no
-- list.
local function page(last, most, ask_for)
  local list = {}
  while #list <= most do
    local piece = ask_for(last == "" and "-" or "(" .. last, math.min(LISTED, most + 1 - #list))
    if not piece then return nil end
    if #piece == 0 then return list, false end
    table.move(piece, 1, #piece, #list + 1, list)
    last = piece[#piece]
  end
  list[#list] = nil
  return list, true
end

return function(most_held, _, folder)
  local file = assert(io.open(folder .. "drop.lua"))
  local drop = file:read("a")
  file:close()
  return {
    find = function(name, reference, is_digest, with_body)
      return connected(function(ask)
        local found = ask("EVAL", FIND, 0, name, reference, is_digest and "digest" or "tag")
        if not found then return nil end
        local digest, kind, stamp, length, shard = table.unpack(found)
        length = math.tointeger(tonumber(length))
        local body = with_body and text_at(ask, "body:" .. name .. "@" .. digest, length) or ""
        if with_body and #body < length then return nil end
        return digest, {
          type = kind, stamp = stamp, length = length, body = body, shard = shard and math.tointeger(tonumber(shard)),
        }
      end)
    end,
    below = function(name, digests)
      if #digests == 0 then return 0 end
      return connected(function(ask)
        local sum = 0
        for _, digest in ipairs(digests) do
          local below = ask("HGET", "manifest:" .. name .. "@" .. digest, "below")
          if not below then return nil end
          sum = sum + math.tointeger(tonumber(below))
        end
        return sum
      end)
    end,
    put = function(name, digest, record, tag)
      return run(
        PUT, name, digest, record.type, record.stamp, record.size, record.below, record.shard, record.body, tag or "",
        most_held, OVERHEAD, table.unpack(record.manifests)
      )
    end,
    drop = function(name, digest, stamp) return run(drop, name, digest, stamp or "", OVERHEAD) == 1 end,
    untag = function(name, tag) return run(UNTAG, name, tag, OVERHEAD) == 1 end,
    move = function(name, digest, stamp, shard) run(MOVE, name, digest, stamp, shard) end,
    any = function(name, shard)
      local digest, is_here = table.unpack(run(ANY, name, shard or ""))
      return digest or nil, is_here == 1
    end,
    name = "redis",
    fault = function()
      local is_well, refusal = pcall(connected, function(ask) return ask("PING") end)
      if not is_well then return type(refusal) == "table" and refusal.fault or tostring(refusal) end
    end,
    tags = function(name, last, most)
      return page(last, most, function(from, count) return run(TAGS, name, from, count) end)
    end,
    repositories = function(last, most)
      return page(last, most, function(from, count) return run(REPOSITORIES, from, count) end)
    end,
  }
end
