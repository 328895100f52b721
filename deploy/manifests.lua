-- Manifests, tags and the list of repositories, which blobd doesn't take. This is no part of what is proved of blobd:
-- it is tested.
--
-- A manifest is taken only if each blob that it names is there, and each manifest that an index names; and it is handed
-- out only as long as they are. Blobs go only with their shard. So each shard gets a blob that nobody else knows, its
-- mark: as long as that is there, all that was found since is there too, and one question for it stands for a question
-- for each blob. If the mark has gone, all that a manifest names is asked for again; if a blob of it has gone, the
-- manifest goes, with its tags and with the indexes that name it.
--
-- A repository moves to another shard if one is added or taken away, and its blobs stay where they are. So a manifest
-- has the shard on which all that it names was found last. If something of it isn't on another one, nothing was lost:
-- the manifest isn't handed out, and stays, until its blobs have moved too.
--
-- Where the manifests are: in Redis if FRONT_REDIS has its address, else in HAProxy's memory. Both are a table of these
-- functions, which yield a 503 by `error` if they can't do their work:
--   find(name, reference, is_digest, with_body): the digest and the record, or nil; without its text, unless that is
--     asked for or at hand
--   below(name, digests): the sum of `below` of these manifests, nil if one isn't there
--   put(name, digest, record, tag): "kept"; "unknown" if a manifest that is named isn't there; "full"
--   drop(name, digest, stamp): drops a manifest, its tags and what names it; with a stamp only if it is of that put.
--     Whether it was there
--   move(name, digest, stamp, shard): notes on which shard what a manifest of that put names was found
--   untag(name, tag): whether it was there
--   tags(name, last, most), repositories(last, most): a list in order, and whether more follow; nil if the repository
--     has no manifest
--   any(name, shard): the digest of a manifest of the repository, of that shard if there is one, and whether it is; or
--     nil
--   fault(): why it can't do its work now, or nil; and `name`, which /health calls it by
-- A record has the text (`body`), its `length`, its media type, the digests of the blobs and manifests that it names
-- (if at hand: else its text has them), how much is below it (`below`), the bytes that it takes (`size`), the number of
-- its shard (if it is known), and which put it came with (`stamp`).

local MIB = 1048576
-- where the blobs are asked for without a login
local BLOBS = "http://" .. os.getenv("FRONT_LOCAL")
local FOLDER = os.getenv("FRONT_LUA"):match("^.*/") or ""
local KEPT_IN = os.getenv("FRONT_REDIS") and "manifests_in_redis.lua" or "manifests_in_memory.lua"
-- seconds in which /health tells of a fault
local TOLD = tonumber(os.getenv("FRONT_TOLD"))
local read_json, key_of = dofile(FOLDER .. "json.lua"), dofile(FOLDER .. "keys.lua")
-- bytes of all manifests and tags
local store = dofile(FOLDER .. KEPT_IN)(tonumber(os.getenv("FRONT_HELD")) * MIB, key_of, FOLDER)

-- What is let go of stays in Lua's table of texts until it is collected, and what collides there is compared with it.
-- By itself Lua would let so much gather as it holds.
collectgarbage("setpause", 125)

-- bytes of a manifest, and of its media type
local LARGEST, LONGEST_TYPE = 4 * MIB, 255
-- blobs and manifests that one manifest names, and that it has below it in all
local MOST_NAMED, MOST_BELOW = 1000, 10000
-- members of objects and values of lists in a manifest, and how many are read without a pause
local MOST_VALUES, VALUES_AT_ONCE = 50000, 500
-- Bytes of manifests that are being received, of all clients. Beyond that only those that have no more than so many go
-- on.
local MOST_RECEIVED, ALWAYS_RECEIVED = 32 * MIB, 16384
-- bytes that a manifest takes beside its text, and a digest in a list, about
local OVERHEAD, DIGEST_SIZE = 512, 128
local LONGEST_NAME, LONGEST_TAG = 255, 128
-- tags or repositories in one reply
local LONGEST_LIST = 1000
-- blobs and manifests that are remembered as found
local MOST_REMEMBERED = 50000
-- milliseconds for a blob to be looked up: more than a request waits in the queue
local PATIENCE = 150000
-- the repository of the marks
local MARKS = "blobd-marks"

-- what a manifest is if its client doesn't say
local MANIFEST_TYPE = "application/vnd.oci.image.manifest.v1+json"
local INDEX_TYPE = "application/vnd.oci.image.index.v1+json"

local DIGITS = {sha256 = 64, sha512 = 128}
local BITS = {sha256 = 256, sha512 = 512}

-- Ends the request with a refusal. A fault is one of what keeps the manifests, and /health tells it.
local function refuse(status, code, message, fields, fault)
  error({status = status, code = code, message = message, fields = fields, fault = fault}, 0)
end

local function answer(applet, status, fields, body, length)
  applet:set_status(status)
  for name, value in pairs(fields) do applet:add_header(name, value) end
  applet:add_header("Content-Length", tostring(length or #body))
  applet:start_response()
  if applet.method ~= "HEAD" and #body > 0 then applet:send(body) end
end

-- The algorithm of a digest, or nil if the text isn't one.
local function algorithm_of(text)
  local algorithm, digits = text:match("^(sha%d+):([0-9a-f]+)$")
  return algorithm and DIGITS[algorithm] == #digits and algorithm or nil
end

local function digest_of(applet, algorithm, body)
  return algorithm .. ":" .. applet.c:hex(applet.c:sha2(body, BITS[algorithm])):lower()
end

-- Bytes that nobody can guess, and a text that no other has.
local random = io.open("/dev/urandom", "rb")
local SECRET = random:read(32):gsub(".", function(byte) return ("%02x"):format(byte:byte()) end)
random:close()
local count = 0
local function new_text()
  count = count + 1
  return SECRET .. "-" .. count
end

--- What a manifest may be

-- Lets other requests go on. A Lua that only yields is called again before HAProxy looks for them, 200 times.
local function pause() core.msleep(1) end

local function unreadable(message)
  refuse(400, "MANIFEST_INVALID", message)
end

-- What finds a member's name in any letters: clients that read names without regard to case would take one in others
-- for it. To them the long s (U+017F) is an s.
local function spellings_of(name)
  return '^"' .. name:gsub("%a", function(letter)
    local both = "[" .. letter:lower() .. letter:upper()
    return letter:lower() == "s" and both .. "\197]\191?" or both .. "]"
  end) .. '"'
end

local SPELLINGS = {}
for _, name in ipairs({"schemaVersion", "config", "layers", "manifests", "digest", "urls"}) do
  SPELLINGS[name] = spellings_of(name)
end

-- The name of those that `takes` has which a member has, if one of them. `seen` has those before it in its object.
local function name_at(json, at, takes, seen)
  local _, last = json.text:find('^"[^"\1]*', at)
  if not json.is(last + 1, '"') then unreadable("a member's name has an escape") end
  for name in pairs(takes) do
    if json.text:find(SPELLINGS[name], at) then
      if json.text:sub(at + 1, at + #name) ~= name then unreadable("a member is to be called " .. name) end
      if seen[name] then unreadable("a member " .. name .. " is there twice") end
      seen[name] = true
      return name
    end
  end
end

-- The place behind an object. `takes` has what goes through the values of some members; one that is null is absent.
local function read_object(json, at, takes)
  local seen = {}
  return json.members(at, function(from, value)
    local name = name_at(json, from, takes, seen)
    if name and not json.is(value, "n") then return takes[name](value) end
    return json.value(value)
  end)
end

-- The digest that is quoted there, or nil.
local function digest_at(json, at, behind)
  for _, digits in pairs(DIGITS) do
    -- no other text is made of what a client wrote
    if behind - at == #"sha256:" + digits + 2 and json.is(at, '"') then
      local digest = json.text:sub(at + 1, behind - 2)
      return algorithm_of(digest) and digest
    end
  end
end

-- Goes through a descriptor, and adds its digest to those found, once. A layer with addresses of its own is fetched
-- there, and isn't pushed.
local function read_descriptor(json, at, found, is_layer)
  local digest, is_elsewhere = nil, false
  local takes = {digest = function(value)
    local behind = json.value(value)
    digest = digest_at(json, value, behind)
    return behind
  end}
  if is_layer then
    takes.urls = function(value)
      if not json.is(value, "[") then return json.value(value) end
      return json.items(value, function(url)
        is_elsewhere = true
        return json.value(url)
      end)
    end
  end
  local behind = json.is(at, "{") and read_object(json, at, takes)
  if not digest then unreadable("a descriptor has no digest") end
  local key = key_of(digest)
  if not is_elsewhere and not found.keys[key] then
    found.keys[key] = true
    found.list[#found.list + 1] = digest
    if #found.list > MOST_NAMED then
      unreadable("the manifest names more than " .. MOST_NAMED .. " blobs and manifests")
    end
  end
  return behind
end

local function read_descriptors(json, at, found, are_layers)
  if not json.is(at, "[") then unreadable("what is to be a list of descriptors isn't one") end
  return json.items(at, function(item) return read_descriptor(json, item, found, are_layers) end)
end

-- The blobs and the manifests that the text of a manifest names: all of them, whichever kind of manifest it is. And
-- whether it is an index.
local function named_in(body)
  local values = 0
  local json = read_json(body, unreadable, function()
    values = values + 1
    if values > MOST_VALUES then refuse(413, "SIZE_INVALID", "the manifest has too many values") end
    if values % VALUES_AT_ONCE == 0 then pause() end
  end, pause)
  local blobs, manifests, has = {keys = {}, list = {}}, {keys = {}, list = {}}, {}
  if not json.is(json.first, "{") then unreadable("a manifest is a JSON object") end
  local behind = read_object(json, json.first, {
    schemaVersion = function(at)
      local last = json.value(at)
      has.version = json.is(at, "2") and last == at + 1
      return last
    end,
    config = function(at)
      has.config = true
      return read_descriptor(json, at, blobs)
    end,
    layers = function(at)
      has.layers = true
      return read_descriptors(json, at, blobs, true)
    end,
    manifests = function(at)
      has.manifests = true
      return read_descriptors(json, at, manifests)
    end,
  })
  if not json.finish(behind) then unreadable("more stands behind the manifest") end
  if not has.version then unreadable("not a manifest of schema version 2") end
  if not has.manifests and not (has.config and has.layers) then
    unreadable("a manifest has a config and layers, an index has manifests")
  end
  if #blobs.list + #manifests.list > MOST_NAMED then
    unreadable("the manifest names more than " .. MOST_NAMED .. " blobs and manifests")
  end
  return blobs.list, manifests.list, has.manifests
end

--- Whether what a manifest names is there

-- Values by texts, all of which are forgotten once there would be too many.
local function new_memory()
  local values, number = {}, 0
  return function(what) return values[key_of(what)] end, function(what, value)
    local key = key_of(what)
    if values[key] == nil then
      if number >= MOST_REMEMBERED then values, number = {}, 0 end
      number = number + 1
    end
    values[key] = value
  end
end

-- marks[shard]: the digest of its mark
local marks = {}
-- of what was found: the mark beside which it was; of a repository its shard
local remembered, remember = new_memory()
-- what became of a repository's manifest that isn't handed out any more
local fate_of, note_fate = new_memory()
local LOST = "what it had before a restart was lost with its shard: push it again"
local MOVED = "it has moved to another shard, and its blobs have not: move them (OPERATIONS.md), or push it again"

-- Whether a blob is there, 200 or 404, else 503; and the shard that says so. `shard` has a number if it is to be asked
-- of that one, else 0.
local function ask_for_blob(name, digest, shard)
  local request = {
    url = BLOBS .. "/v2/" .. name .. "/blobs/" .. digest,
    timeout = PATIENCE,
    headers = {["X-Shard"] = {tostring(shard)}},
  }
  local heard = core.httpclient():head(request)
  local by = heard.headers and heard.headers["x-shard"]
  return (heard.status == 200 or heard.status == 404) and heard.status or 503, by and tonumber(by[0] or by[1])
end

-- Gives a shard a mark. Nil if that can't be had, as when it is out of memory: then nothing is remembered.
local function new_mark(applet, shard)
  local text = new_text()
  local digest = digest_of(applet, "sha256", text)
  local heard = core.httpclient():post({
    url = BLOBS .. "/v2/" .. MARKS .. "/blobs/uploads/?digest=" .. digest, body = text, timeout = PATIENCE,
    headers = {["X-Shard"] = {tostring(shard)}},
  })
  marks[shard] = heard.status == 201 and digest or nil
  return marks[shard]
end

-- The number of a repository's shard. Nil if it doesn't answer.
local function shard_of(name)
  local shard = remembered("shard of " .. name)
  if not shard then
    local status, by = ask_for_blob(name, "sha256:" .. ("0"):rep(64), 0)
    if status == 503 or not by then return nil end
    shard = by
    remember("shard of " .. name, shard)
  end
  return shard
end

-- Whether a shard answers, and its mark, which is there now: what was found beside it is there too. Nil if there is
-- none.
local function mark_at(applet, shard)
  local mark = marks[shard]
  if not mark then return true, new_mark(applet, shard) end
  local status = ask_for_blob(MARKS, mark, shard)
  if status == 503 then return false end
  if status == 200 then return true, mark end
  if marks[shard] == mark then marks[shard] = nil end
  return true, marks[shard] or new_mark(applet, shard)
end

-- The mark of a repository's shard, and the shard's number.
local function mark_of(applet, name)
  local shard, answers, mark = shard_of(name), false, nil
  if shard then answers, mark = mark_at(applet, shard) end
  if not answers then refuse(503, "UNAVAILABLE", "the shard of this repository does not answer") end
  return mark, shard
end

-- Whether all of these are there: 200, else 404 or 503.
local function status_of_blobs(name, digests, mark)
  for _, digest in ipairs(digests) do
    local what = "blob " .. name .. "@" .. digest
    if not mark or remembered(what) ~= mark then
      local status = ask_for_blob(name, digest, 0)
      if status ~= 200 then return status end
      if mark then remember(what, mark) end
    end
  end
  return 200
end

local status_of_manifest

-- The same of what a manifest names.
local function status_of_named(name, blobs, manifests, mark)
  local status = status_of_blobs(name, blobs, mark)
  for _, digest in ipairs(manifests) do
    if status ~= 200 then break end
    status = status_of_manifest(name, digest, mark)
  end
  return status
end

-- Notes on which shard what a manifest names was found. If something of it isn't on the shard that it was found on
-- before, it is lost, and the manifest is dropped.
local function settle(name, digest, record, status)
  local shard = shard_of(name)
  if status == 200 and shard and record.shard ~= shard then
    store.move(name, digest, record.stamp, shard)
    note_fate(name, false)
  end
  if status ~= 404 then return end
  note_fate(name, record.shard == shard and LOST or MOVED)
  if record.shard == shard then
    core.log(core.notice, "dropped, since what it names has gone: " .. name .. "@" .. digest)
    store.drop(name, digest, record.stamp)
  end
end

-- The same of a manifest that may be held.
status_of_manifest = function(name, digest, mark)
  local what = "manifest " .. name .. "@" .. digest
  if mark and remembered(what) == mark then return 200 end
  local _, record = store.find(name, digest, true, true)
  if not record then return 404 end
  local blobs, manifests = record.blobs, record.manifests
  if not blobs then
    local is_read, told, others = pcall(named_in, record.body)
    if not is_read then
      if type(told) ~= "table" then error(told, 0) end
      -- Redis has one that wasn't taken here: it stays there, and isn't handed out
      core.log(core.err, "no manifest: " .. name .. "@" .. digest .. ": " .. told.message)
      return 404
    end
    blobs, manifests = told, others
  end
  local status = status_of_named(name, blobs, manifests, mark)
  if status == 200 and mark then remember(what, mark) end
  settle(name, digest, record, status)
  return status
end

--- Requests

-- Bodies that are being received, by their lists of parts. A client that goes away takes its list with it, once it is
-- collected.
local receiving = setmetatable({}, {__mode = "k"})
local collected = 0

local function received()
  local sum = 0
  for _, size in pairs(receiving) do sum = sum + size end
  return sum
end

-- Whether there is room for more. What clients left behind is collected first, at most once a second.
local function has_room()
  if received() <= MOST_RECEIVED then return true end
  local now = core.now().sec
  if now ~= collected then
    collected = now
    collectgarbage()
  end
  return received() <= MOST_RECEIVED
end

-- Adds a part to a text that is held in parts, each at least as long as those behind it together. So there are few of
-- them, however short those are that come: many short ones could collide in Lua's table of texts.
local function add_part(parts, part)
  while #parts > 0 and #parts[#parts] <= #part do part = table.remove(parts) .. part end
  parts[#parts + 1] = part
end

-- The request's body. `receive` hands out less than it was asked for: only the empty text is the end.
local function body_of(applet)
  local parts, size = {}, 0
  repeat
    local part = applet:receive(MIB)
    if part ~= "" then add_part(parts, part) end
    size = size + #part
    receiving[parts] = size
    if size > LARGEST then refuse(413, "SIZE_INVALID", "a manifest may have 4 MiB") end
    if size > ALWAYS_RECEIVED and not has_room() then
      refuse(429, "TOOMANYREQUESTS", "too many large manifests are being sent: try again", {["Retry-After"] = "2"})
    end
  until part == ""
  local body = table.concat(parts)
  receiving[parts] = nil
  return body
end

-- The media type that the client names, without its parameters, if it names one. It has to be one of manifests and
-- indexes: no browser takes what comes back for a page then.
local function type_of(applet)
  local kind = applet:get_var("txn.type")
  if not kind then return nil end
  kind = kind:match("^[^;%s]*"):lower()
  if #kind > LONGEST_TYPE or not kind:find("^application/vnd%.[%w!#$&^_.+-]+%+json$") then
    unreadable("the Content-Type is no manifest's")
  end
  return kind
end

local function put(applet, name, reference, algorithm)
  local kind, body = type_of(applet), body_of(applet)
  local digest = digest_of(applet, algorithm or "sha256", body)
  if algorithm and reference ~= digest then refuse(400, "DIGEST_INVALID", "the manifest has another digest") end
  local blobs, manifests, is_index = named_in(body)
  local below = store.below(name, manifests)
  if not below then
    refuse(404, "MANIFEST_BLOB_UNKNOWN", "the repository doesn't have all manifests that the index names")
  end
  below = below + #blobs + #manifests
  if below > MOST_BELOW then unreadable("the index has more than " .. MOST_BELOW .. " blobs and manifests below it") end
  local record = {
    body = body, type = kind or is_index and INDEX_TYPE or MANIFEST_TYPE, blobs = blobs, manifests = manifests,
    below = below, stamp = new_text(), length = #body,
    size = #body + DIGEST_SIZE * (#blobs + #manifests) + OVERHEAD,
  }
  local mark
  mark, record.shard = mark_of(applet, name)
  local status = status_of_named(name, blobs, manifests, mark)
  if status == 404 then
    refuse(404, "MANIFEST_BLOB_UNKNOWN", "the repository doesn't have all that the manifest names")
  end
  if status ~= 200 then refuse(503, "UNAVAILABLE", "the shard of this repository does not answer") end
  local done = store.put(name, digest, record, not algorithm and reference or nil)
  if done == "unknown" then
    refuse(404, "MANIFEST_BLOB_UNKNOWN", "the repository doesn't have all that the manifest names")
  end
  if done == "full" then
    refuse(503, "UNAVAILABLE", "there is no room for more manifests (FRONT_HELD)", nil, "full (FRONT_HELD)")
  end
  if mark then remember("manifest " .. name .. "@" .. digest, mark) end
  answer(applet, 201, {Location = "/v2/" .. name .. "/manifests/" .. digest, ["Docker-Content-Digest"] = digest}, "")
end

local function not_there(name, code, message)
  local fate = fate_of(name)
  refuse(404, code, fate and message .. ": " .. fate or message)
end

local function no_such_manifest(name)
  not_there(name, "MANIFEST_UNKNOWN", "the repository has no such manifest")
end

local function get(applet, name, reference, algorithm)
  local digest, record = store.find(name, reference, algorithm ~= nil, applet.method ~= "HEAD")
  if not digest then no_such_manifest(name) end
  local mark = mark_of(applet, name)
  local status = status_of_manifest(name, digest, mark)
  if status == 404 then no_such_manifest(name) end
  if status ~= 200 then refuse(503, "UNAVAILABLE", "the shard of this repository does not answer") end
  answer(applet, 200, {["Content-Type"] = record.type, ["Docker-Content-Digest"] = digest}, record.body, record.length)
end

local function delete(applet, name, reference, algorithm)
  local was_there
  if algorithm then was_there = store.drop(name, reference) else was_there = store.untag(name, reference) end
  if not was_there then no_such_manifest(name) end
  answer(applet, 202, {}, "")
end

-- How many a client asks for at most, and behind which.
local function asked_for(applet)
  local query = "&" .. (applet.qs or "")
  local most, last = tonumber(query:match("&n=(%d+)")), query:match("&last=([%w_./%%-]*)") or ""
  last = last:gsub("%%(%x%x)", function(digits) return string.char(tonumber(digits, 16)) end)
  return math.floor(math.min(most or LONGEST_LIST, LONGEST_LIST)), last
end

-- Those of a list that are there, in quotes: no name and no tag has a character that JSON escapes.
local function quoted(list, is_there)
  local texts = {}
  for _, text in ipairs(list) do
    if is_there(text) then texts[#texts + 1] = '"' .. text .. '"' end
  end
  return texts
end

-- What of a list is there, with a link to the rest.
local function answer_list(applet, list, texts, more, most, form)
  local fields = {["Content-Type"] = "application/json"}
  if more and #list > 0 then
    fields["Link"] = "<" .. applet.path .. "?n=" .. most .. "&last=" .. list[#list] .. '>; rel="next"'
  end
  answer(applet, 200, fields, form:format("[" .. table.concat(texts, ",") .. "]"))
end

-- What tells whether a repository's shard answers, and its mark. Each shard is asked once.
local function marks_now(applet)
  local told, is_one_away = {}, false
  return function(name)
    if is_one_away and not remembered("shard of " .. name) then return false end
    local shard = shard_of(name)
    if not shard then
      is_one_away = true
      return false
    end
    told[shard] = told[shard] or {mark_at(applet, shard)}
    return table.unpack(told[shard], 1, 2)
  end
end

-- Whether a repository has a manifest. What was lost with its shard is dropped; of those that are of another shard one
-- is looked at. If the shard doesn't answer, what there was is taken to be there.
local function has_manifest(name, answers, mark)
  local before, digest, is_here, status
  repeat
    before = digest
    digest, is_here = store.any(name, answers and shard_of(name))
    if not digest then return false end
    if not answers or digest == before then return true end
    status = status_of_manifest(name, digest, mark)
    if status == 404 and not is_here then return false end
  until status ~= 404
  return true
end

local function list_tags(applet, name)
  local most, last = asked_for(applet)
  local answers, mark = marks_now(applet)(name)
  local tags, more = store.tags(name, last, most)
  local texts = quoted(tags or {}, function(tag)
    local digest = store.find(name, tag, false)
    return digest and not (answers and status_of_manifest(name, digest, mark) == 404)
  end)
  if not tags or #texts == 0 and not has_manifest(name, answers, mark) then
    not_there(name, "NAME_UNKNOWN", "the repository has no manifest")
  end
  answer_list(applet, tags, texts, more, most, '{"name":"' .. name .. '","tags":%s}')
end

local function list_repositories(applet)
  local most, last = asked_for(applet)
  local names, more = store.repositories(last, most)
  local mark_now = marks_now(applet)
  local texts = quoted(names, function(name) return has_manifest(name, mark_now(name)) end)
  answer_list(applet, names, texts, more, most, '{"repositories":%s}')
end

local METHODS = {GET = get, HEAD = get, PUT = put, DELETE = delete}

local function serve(applet)
  local name = applet.path:match("^/v2/(.+)/tags/list$")
  local reference
  if not name then name, reference = applet.path:match("^/v2/(.+)/manifests/([^/]+)$") end
  if name and #name > LONGEST_NAME then refuse(404, "NAME_INVALID", "the name is too long") end
  if not reference then
    if applet.method ~= "GET" and applet.method ~= "HEAD" then
      refuse(405, "UNSUPPORTED", "lists are asked for by GET", {Allow = "GET, HEAD"})
    end
    if name then return list_tags(applet, name) end
    return list_repositories(applet)
  end
  local algorithm = algorithm_of(reference)
  if not algorithm and (#reference > LONGEST_TAG or reference:find(":", 1, true)) then
    unreadable("the reference is neither a tag nor a digest")
  end
  local work = METHODS[applet.method]
  if not work then refuse(405, "UNSUPPORTED", "manifests have other methods", {Allow = "GET, HEAD, PUT, DELETE"}) end
  work(applet, name, reference, algorithm)
end

-- no code and no message has a character that JSON escapes
local ERROR = '{"errors":[{"code":"%s","message":"%s"}]}'

-- The last fault of what keeps the manifests, and its second.
local last_fault, faulted = nil, 0

core.register_service("manifests", "http", function(applet)
  local done, refusal = pcall(serve, applet)
  if done then return end
  if type(refusal) ~= "table" then
    core.log(core.err, "manifests.lua: " .. tostring(refusal))
    refusal = {status = 500, code = "UNAVAILABLE", message = "the reverse proxy failed: its log says more"}
  end
  if refusal.fault then last_fault, faulted = refusal.fault, core.now().sec end
  local fields = refusal.fields or {}
  fields["Content-Type"] = "application/json"
  answer(applet, refusal.status, fields, ERROR:format(refusal.code, refusal.message))
end)

dofile(FOLDER .. "health.lua")(store, function()
  if core.now().sec - faulted < TOLD then return ("failed within the last %d s: %s"):format(TOLD, last_fault) end
end)
