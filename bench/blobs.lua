-- Stores distinct small blobs by an opening and a close each: wrk --threads N --connections N --script blobs.lua URL
-- DIGESTS N, where line I of the file DIGESTS has the digest of blob I. Each of the N threads has a connection and
-- every Nth blob. The last line printed has the blobs stored and the seconds that they took.
local CONTENT_WORDS, LINE_LEN, threads = 128, 72, 0
local digests, number, step, place

function setup(thread)
  thread:set("first", threads)
  threads = threads + 1
end

-- It reads no digest yet: the first threads send requests while wrk prepares the others, before its time begins.
function init(words)
  digests, number, step = assert(io.open(words[1])), first, tonumber(words[2])
end

-- The number and the digest of the next blob; once all are stored, the first ones come again.
local function next_blob()
  digests:seek("set", number * LINE_LEN)
  local digest = digests:read()
  if not digest then
    number = first
    return next_blob()
  end
  number = number + step
  return number - step, digest
end

-- The bytes of a number, the highest first, again and again.
local function content(number)
  local bytes = {}
  for index = 8, 1, -1 do
    bytes[index], number = string.char(number % 256), math.floor(number / 256)
  end
  return string.rep(table.concat(bytes), CONTENT_WORDS)
end

function request()
  if not place then
    return wrk.format("POST", "/v2/lib/a/blobs/uploads/", { ["Content-Length"] = "0" })
  end
  local blob, digest = next_blob()
  local target = place .. (place:find("?", 1, true) and "&" or "?") .. "digest=" .. digest
  return wrk.format("PUT", target, nil, content(blob))
end

function response(status, fields)
  place = nil
  if status == 202 then
    for name, value in pairs(fields) do
      if name:lower() == "location" then
        place = value:gsub("^%a+://[^/]+", "")
      end
    end
  elseif status ~= 201 then
    print("a reply of " .. status)
  end
end

function done(summary)
  print(summary.requests / 2, summary.duration / 1e6, summary.errors.status + summary.errors.read)
end
