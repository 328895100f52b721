-- A script of Redis that drops a manifest, its tags and the indexes that name it. manifests_in_redis.lua and
-- referenced.py run it. Its words: the repository's name, the manifest's digest, the stamp of the put that it has to be
-- of, or nothing, the bytes that a tag takes beside its text, and "unnamed" if no index may name it. It gives 1 if the
-- manifest was dropped, else 0.
--
-- Redis's Lua has all texts in one table, and hashes them without a secret. So a script that goes through many of them
-- holds a hundred at a time: Redis itself has those that are left to drop.

local name, first, stamp, overhead, unnamed = unpack(ARGV)
local is = redis.call("HGET", "manifest:" .. name .. "@" .. first, "stamp")
if not is or stamp ~= "" and is ~= stamp then return 0 end
if unnamed and redis.call("EXISTS", "above:" .. name .. "@" .. first) == 1 then return 0 end
local held = 0
local function take(set, work)
  repeat
    local members = redis.call("SPOP", set, 100)
    for _, member in ipairs(members) do work(member) end
    held = held + #members
    if held > 1000 then
      collectgarbage()
      held = 0
    end
  until #members == 0
end
redis.call("SADD", "dropping", first)
take("dropping", function(digest)
  local at = name .. "@" .. digest
  local freed = redis.call("HGET", "manifest:" .. at, "size")
  if freed then
    take("tagged:" .. at, function(tag)
      redis.call("HDEL", "digest:" .. name, tag)
      redis.call("ZREM", "tags:" .. name, tag)
      freed = freed + #tag + overhead
    end)
    take("above:" .. at, function(above) redis.call("SADD", "dropping", above) end)
    take("names:" .. at, function(named) redis.call("SREM", "above:" .. name .. "@" .. named, digest) end)
    redis.call("DEL", "manifest:" .. at, "body:" .. at)
    redis.call("SREM", "manifests:" .. name, digest)
    redis.call("DECRBY", "held", freed)
  end
end)
if redis.call("EXISTS", "manifests:" .. name) == 0 then redis.call("ZREM", "repositories", name) end
return 1
