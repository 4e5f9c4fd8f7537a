-- Prints the strings of a JSON text from standard input, one on a line, as examples/strings.spf does.
local function after(state, byte)
  if state == 2 then return 1 end
  if byte == 34 then return 1 - state end
  if byte == 92 then return 2 * state end
  return state
end

local data = io.read("*a")
local out, state = {}, 0
for at = 1, #data do
  local byte = data:byte(at)
  if state == 1 and byte == 34 then
    out[#out + 1] = "\n"
  elseif state > 0 then
    out[#out + 1] = string.char(byte)
  end
  state = after(state, byte)
end
io.write(table.concat(out))
os.exit(state > 0 and 1 or 0)
