-- Turns CSV from standard input into delimited text, as examples/csv.spf does.
local function after(state, byte)
  if byte == 34 then return 2 - (state + 1) % 2 end
  if state == 1 then return 1 end
  return 0
end

local function written(state, byte)
  if state == 1 then
    if byte == 34 then return 0 end
    return byte + 1
  end
  if byte == 34 then return state == 2 and 35 or 0 end
  if byte == 44 then return 32 end
  if byte == 10 then return 31 end
  if byte == 13 then return 0 end
  return byte + 1
end

local data = io.read("*a")
local out, state = {}, 0
for at = 1, #data do
  local byte = data:byte(at)
  local cell = written(state, byte)
  state = after(state, byte)
  if cell > 0 then out[#out + 1] = string.char(cell - 1) end
end
io.write(table.concat(out))
os.exit(state == 1 and 1 or 0)
