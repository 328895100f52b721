-- Goes through a text of JSON, by the grammar of RFC 8259, in a time that is linear in its bytes whatever they are.
--
-- It makes no text of what a client chose but pieces of it: Lua has all texts of up to 40 bytes in one table, and of
-- those of 32 bytes or more its hash sees some bytes only. So a client could have many collide there.
--
-- Parts are known by their places, from 1 on. What is given is a table:
--   text: the text, with bytes 1 in the place of each escape; so it is only read where no escape may stand
--   first: where its value begins
--   is(at, character): whether what stands there begins so
--   value(at): the place behind the value that begins there
--   members(at, visit): the same of an object. `visit` is given the places of a member's name and of its value, and
--     gives the one behind the value
--   items(at, visit): the same of a list, with the place of each value
--   finish(at): whether nothing but space stands there

-- an implementation may limit it (section 9)
local DEEPEST = 100
-- bytes that are looked at without a pause
local PIECE = 65536

local byte, find = string.byte, string.find
local QUOTE, COMMA, COLON = byte('",:', 1, 3)
local WORDS = {[byte("t")] = "^true", [byte("f")] = "^false", [byte("n")] = "^null"}

-- Whether a piece has whole characters of UTF-8 alone, and no byte that no text of JSON has.
local function has_characters(piece)
  local _, last = find(piece, "^[ -\127\t\n\r]*")
  -- utf8.len takes surrogates
  return last == #piece
    or utf8.len(piece) and not find(piece, "[\0-\8\11\12\14-\31]") and not find(piece, "\237[\160-\191]")
end

-- Where a piece that begins there ends: no character is cut.
local function end_of_piece(text, from)
  local last = math.min(from + PIECE - 1, #text)
  for _ = 1, 3 do
    if find(text, "^[\128-\191]", last + 1) then last = last - 1 end
  end
  return last
end

-- Where a character stands next, at a place or behind it. It is asked for places that only grow, and so goes through
-- the text once.
local function next_of(text, character)
  local found = 0
  return function(at)
    if found < at then found = find(text, character, at, true) or #text + 1 end
    return found
  end
end

-- `fault` ends the reading of what isn't JSON, and is told what is wrong; `count` is called for each member of an
-- object and each value of a list; `pause` lets others do something.
return function(original, fault, count, pause)
  local function wrong() fault("the manifest isn't JSON") end

  -- The text without escapes.
  local function plain()
    local pieces, from = {}, 1
    while from <= #original do
      if from > 1 then pause() end
      local last = end_of_piece(original, from)
      local piece = original:sub(from, last)
      if not has_characters(piece) then fault("the manifest isn't UTF-8, or has control characters") end
      if find(piece, "\\", 1, true) then
        piece = piece:gsub('\\["\\/bfnrt]', "\1\1"):gsub("\\u%x%x%x%x", "\1\1\1\1\1\1")
        local cut = find(piece, "\\", 1, true)
        if cut then
          -- the next piece begins with an escape that this one has a part of
          if last == #original or cut < #piece - 4 then wrong() end
          piece = piece:sub(1, cut - 1)
        end
      end
      pieces[#pieces + 1] = piece
      from = from + #piece
    end
    return table.concat(pieces)
  end

  local text, depth, value = plain(), 0, nil
  local next_quote = next_of(text, '"')
  local next_tab, next_feed, next_return = next_of(text, "\t"), next_of(text, "\n"), next_of(text, "\r")

  local function is(at, character) return byte(text, at) == byte(character) end

  local function behind_space(at)
    local _, last = find(text, "^[ \t\n\r]*", at)
    return last + 1
  end

  local function behind_quoted(at)
    if byte(text, at) ~= QUOTE then wrong() end
    local quote = next_quote(at + 1)
    if quote > #text or next_tab(at) < quote or next_feed(at) < quote or next_return(at) < quote then wrong() end
    return quote + 1
  end

  -- The place behind what may stand behind a number: a mark, and digits behind that.
  local function behind_digits(at, mark, digits)
    if not find(text, mark, at) then return at end
    local _, last = find(text, digits, at)
    if not last then wrong() end
    return last + 1
  end

  local function behind_number(at)
    local _, last = find(text, "^-?%d+", at)
    if not last or find(text, "^-?0%d", at) then wrong() end
    return behind_digits(behind_digits(last + 1, "^%.", "^%.%d+"), "^[eE]", "^[eE][+-]?%d+")
  end

  -- The place behind what is in brackets, whose parts `part` goes through.
  local function behind_parts(at, closing, part)
    depth = depth + 1
    if depth > DEEPEST then fault("the manifest is nested too deep") end
    at = behind_space(at + 1)
    if not is(at, closing) then
      while true do
        count()
        at = behind_space(part(at))
        if byte(text, at) ~= COMMA then break end
        at = behind_space(at + 1)
      end
    end
    if not is(at, closing) then wrong() end
    depth = depth - 1
    return at + 1
  end

  local function items(at, visit) return behind_parts(at, "]", visit) end

  local function members(at, visit)
    return behind_parts(at, "}", function(name)
      local colon = behind_space(behind_quoted(name))
      if byte(text, colon) ~= COLON then wrong() end
      return visit(name, behind_space(colon + 1))
    end)
  end

  local function any_member(_, at) return value(at) end

  value = function(at)
    if is(at, '"') then return behind_quoted(at) end
    if is(at, "{") then return members(at, any_member) end
    if is(at, "[") then return items(at, value) end
    local word = WORDS[byte(text, at)]
    if not word then return behind_number(at) end
    local _, last = find(text, word, at)
    if not last then wrong() end
    return last + 1
  end

  return {
    text = text, first = behind_space(1), is = is, value = value, members = members, items = items,
    finish = function(at) return behind_space(at) > #text end,
  }
end
