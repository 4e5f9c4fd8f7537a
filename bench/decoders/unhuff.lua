-- Decodes a HUF1 file from standard input, bit by bit.
local data = io.read("*a")
local code, word, first = {}, 0, 1
for length = 1, 15 do
  first = first * 2
  for symbol = 0, 255 do
    if data:byte(5 + symbol) == length then
      code[first + word] = string.char(symbol)
      word = word + 1
    end
  end
  word = word * 2
end
local count = 0
for at = 261, 264 do count = count * 256 + data:byte(at) end
local out, done, held = {}, 0, 1
for at = 265, #data do
  local byte = data:byte(at)
  for _ = 1, 8 do
    held = held * 2 + (byte >= 128 and 1 or 0)
    byte = byte % 128 * 2
    local symbol = code[held]
    if symbol and done < count then
      done = done + 1
      out[done] = symbol
      held = 1
    end
  end
end
io.write(table.concat(out))
