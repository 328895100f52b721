-- GET /health: how each part of the registry is, a line each, and 503 if one is down. A full one isn't: who takes a
-- registry away for that takes its pulls away too. manifests.lua gives the table of functions that keeps manifests, and
-- what tells why they were refused of late.
--
-- HAProxy sees whether a shard takes connections (its backend watch), and tells here which one refused a request for
-- want of room (`lua.told`). Redis is asked. What it refused stands for a while too: if its disk is full, it ends at
-- each change and is well in between.

-- seconds in which a refusal is told
local TOLD = tonumber(os.getenv("FRONT_TOLD"))

-- what haproxy.cfg tells of a shard that refused a request for want of room
local STATES = {
  full = "full", uploads = "full of open uploads", cut = "full, or it ended a request without a reply",
}
-- the last of it of each shard, and its second
local refusals = {}

core.register_fetches("told", function(txn, state)
  refusals[txn.f:srv_name()] = {state = STATES[state], second = core.now().sec}
  return state
end)

-- How a shard is, and whether it is down.
local function state_of(shard, server)
  if not server:get_stats().status:find("^UP") then return "takes no connections", true end
  local refusal = refusals[shard]
  if refusal and core.now().sec - refusal.second < TOLD then return refusal.state end
  return "well"
end

return function(store, told_of_late)
  core.register_service("health", "http", function(applet)
    local parts = {}
    for shard, server in pairs(core.backends["watch"].servers) do
      local state, is_down = state_of(shard, server)
      parts[#parts + 1] = {name = shard, state = state, is_down = is_down}
    end
    table.sort(parts, function(one, other) return one.name < other.name end)
    local fault = store.fault()
    parts[#parts + 1] = {name = store.name, state = fault or told_of_late() or "well", is_down = fault ~= nil}
    local status, lines = 200, {}
    for at, part in ipairs(parts) do
      if part.is_down then status = 503 end
      lines[at] = part.name .. ": " .. part.state .. "\n"
    end
    local body = table.concat(lines)
    applet:set_status(status)
    applet:add_header("Content-Type", "text/plain")
    applet:add_header("Content-Length", tostring(#body))
    applet:start_response()
    if applet.method ~= "HEAD" then applet:send(body) end
  end)
end
