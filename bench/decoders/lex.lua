-- Runs a LEX1 machine, the file that is named, over standard input.
-- LuaJIT has no string.pack
local pack = string.pack or function(_, action, n)
  local floor = math.floor
  return string.char(action, floor(n / 16777216), floor(n / 65536) % 256, floor(n / 256) % 256, n % 256)
end
local file = io.open(arg[1], "rb")
local machine = file:read("*a")
file:close()
local data = io.read("*a")
local classes = machine:byte(6)
local out, state = {}, 0
for at = 1, #data do
  local entry = 262 + 2 * (state * classes + machine:byte(7 + data:byte(at)))
  local action = machine:byte(entry + 2)
  if action ~= 0 then out[#out + 1] = pack(">BI4", action, at - 1) end
  state = machine:byte(entry + 1)
end
io.write(table.concat(out))
