-- Checks that standard input is UTF-8, as examples/utf8.spf does, and prints how many characters it has.
local function first(byte)
  if byte < 128 then return 0 end
  if byte > 193 and byte < 224 then return 1 end
  if byte == 224 then return 4 end
  if byte == 237 then return 5 end
  if byte > 223 and byte < 240 then return 2 end
  if byte == 240 then return 6 end
  if byte == 244 then return 7 end
  if byte > 240 and byte < 244 then return 3 end
  return 8
end

local function after(state, byte)
  local low, high, rest = 128, 191, state - 1
  if state > 3 then rest = state > 5 and 2 or 1 end
  if state == 4 then low = 160 end
  if state == 5 then high = 159 end
  if state == 6 then low = 144 end
  if state == 7 then high = 143 end
  if state == 0 or state == 8 then return first(byte) end
  return byte >= low and byte <= high and rest or 8
end

local function scan(data)
  local state, number = 0, 0
  for at = 1, #data do
    if state == 0 then number = number + 1 end
    state = after(state, data:byte(at))
    if state == 8 then return at - 1, 1 end
  end
  if state == 0 then return number, 0 end
  return #data, 1
end

local shown, status = scan(io.read("*a"))
print(shown)
os.exit(status)
