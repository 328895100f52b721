-- Manifests and tags in HAProxy's memory: a restart or a reload of HAProxy loses them, so no repository moves while
-- they are there (`move`). manifests.lua says what the functions are for.

-- bytes that an entry takes beside its text, about
local OVERHEAD = 512
-- tags and manifests that go at once: then others have their turn
local AT_ONCE = 5000
-- Lua has all texts of up to 40 bytes in one table, where a client could have many collide. So what stays has this
-- behind it, and is longer. No text of a name, a tag or a media type has a character before a space.
local SPACE = (" "):rep(40)

-- Calls a function so that no other request comes between: HAProxy interrupts Lua after so many instructions, but never
-- inside a function of C.
local function at_once(work)
  return function(...)
    local words, results = table.pack(...), nil
    string.gsub(".", ".", function() results = table.pack(work(table.unpack(words, 1, words.n))) end)
    return table.unpack(results, 1, results.n)
  end
end

local function long(text) return text .. SPACE end

local function short(text) return text:sub(1, -1 - #SPACE) end

-- Where a text stands in a list in order, or would.
local function place_of(list, text)
  local low, high = 1, #list + 1
  while low < high do
    local middle = (low + high) // 2
    if list[middle].text < text then low = middle + 1 else high = middle end
  end
  return low
end

local function add(list, one) table.insert(list, place_of(list, one.text), one) end

local function remove(list, one) table.remove(list, place_of(list, one.text)) end

-- Takes the tags out of a list that are no manifest's any more.
local function sweep(tags)
  local kept = 0
  for at = 1, #tags do
    local tag = tags[at]
    tags[at] = nil
    if tag.record then
      kept = kept + 1
      tags[kept] = tag
    end
  end
end

-- At most `most` texts of the list behind `last`, and whether more follow.
local function page(list, last, most)
  local first, texts = place_of(list, long(last)), {}
  if list[first] and list[first].text == long(last) then first = first + 1 end
  for at = first, math.min(first + most - 1, #list) do texts[#texts + 1] = short(list[at].text) end
  return texts, first + most <= #list
end

return function(most_held, key_of)
  -- By the keys of their names: records and tags by the keys of their digests and texts, and the tags in order. A
  -- record has its tags, the records that it names (`named`) and those that name it (`above`).
  local repositories, in_order, held = {}, {}, 0
  local store = {}

  local function found(name, digest)
    local repository = repositories[key_of(name)]
    return repository, repository and repository.records[key_of(digest)]
  end

  local function tagged(name, text)
    local repository = repositories[key_of(name)]
    return repository, repository and repository.tags[key_of(text)]
  end

  -- A tag is its manifest's no more.
  local function untag(repository, tag)
    repository.tags[tag.key] = nil
    tag.record.tags[tag] = nil
    tag.record = nil
    held = held - tag.size
  end

  local function forget(repository, record)
    repository.records[record.key] = nil
    held = held - record.size
    for _, named in ipairs(record.named) do named.above[record] = nil end
  end

  store.find = function(name, reference, is_digest)
    local record, tag, _
    if is_digest then _, record = found(name, reference) else _, tag = tagged(name, reference) end
    record = record or tag and tag.record
    if not record then return nil end
    return record.digest, {
      type = short(record.type), stamp = record.stamp, length = record.length, body = record.body,
      blobs = record.blobs, manifests = record.manifests, shard = record.shard,
    }
  end

  -- Drops a manifest, and before it what names it, the topmost first: so nothing is there at any moment that names what
  -- has gone. Only so many go. Whether all have gone then.
  local function drop_some(repository, record)
    local left, gone = {record}, 0
    while #left > 0 do
      if gone >= AT_ONCE then return false end
      local one, height = left[#left], #left
      if repository.records[one.key] == one then
        for above in pairs(one.above) do
          left[#left + 1] = above
          if #left == height + AT_ONCE // 5 then break end
        end
      end
      if #left == height then
        for tag in pairs(one.tags) do
          untag(repository, tag)
          gone = gone + 1
          if gone == AT_ONCE then break end
        end
        if not next(one.tags) then
          if repository.records[one.key] == one then forget(repository, one) end
          left[height], gone = nil, gone + 1
        end
      end
    end
    return true
  end

  -- Whether the manifest was there, and whether there is more to drop.
  local drop_piece = at_once(function(name, digest, stamp)
    local repository, record = found(name, digest)
    if not record or stamp and record.stamp ~= stamp then return false, false end
    local is_gone = drop_some(repository, record)
    sweep(repository.in_order)
    if not next(repository.records) then
      repositories[key_of(name)] = nil
      remove(in_order, repository)
    end
    return true, not is_gone
  end)

  store.drop = function(name, digest, stamp)
    local was_there, more = drop_piece(name, digest, stamp)
    while more do
      core.msleep(1)
      _, more = drop_piece(name, digest, stamp)
    end
    return was_there
  end

  store.untag = at_once(function(name, text)
    local repository, tag = tagged(name, text)
    if not tag then return false end
    untag(repository, tag)
    remove(repository.in_order, tag)
    return true
  end)

  store.below = function(name, digests)
    local sum = 0
    for _, digest in ipairs(digests) do
      local _, record = found(name, digest)
      if not record then return nil end
      sum = sum + record.below
    end
    return sum
  end

  -- A manifest that is put again has another media type and stamp at most.
  local function add_record(repository, digest, record, named, before)
    if before then
      before.type, before.stamp = long(record.type), record.stamp
      return before
    end
    record.digest, record.key, record.type = digest, key_of(digest), long(record.type)
    record.tags, record.above, record.named = {}, {}, named
    for _, one in ipairs(named) do one.above[record] = true end
    repository.records[record.key] = record
    return record
  end

  store.put = at_once(function(name, digest, record, text)
    local named = {}
    for at, one in ipairs(record.manifests) do
      local _, is = found(name, one)
      if not is then return "unknown" end
      named[at] = is
    end
    local repository, before = found(name, digest)
    local tag = text and select(2, tagged(name, text))
    local more = (before and 0 or record.size) + (text and not tag and #text + OVERHEAD or 0)
    if more > 0 and held + more > most_held then return "full" end
    if not repository then
      repository = {text = long(name), records = {}, tags = {}, in_order = {}}
      repositories[key_of(name)] = repository
      add(in_order, repository)
    end
    record = add_record(repository, digest, record, named, before)
    if text then
      if tag then
        tag.record.tags[tag] = nil
      else
        tag = {text = long(text), key = key_of(text), size = #text + OVERHEAD}
        repository.tags[tag.key] = tag
        add(repository.in_order, tag)
      end
      tag.record = record
      record.tags[tag] = true
    end
    held = held + more
    return "kept"
  end)

  store.tags = at_once(function(name, last, most)
    local repository = repositories[key_of(name)]
    if repository then return page(repository.in_order, last, most) end
  end)

  store.any = function(name)
    local repository = repositories[key_of(name)]
    local _, record = next(repository and repository.records or {})
    return record and record.digest, true
  end

  store.name = "manifests"
  store.fault = function() end

  store.repositories = at_once(function(last, most) return page(in_order, last, most) end)

  return store
end
