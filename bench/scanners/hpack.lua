-- Decodes a string in the fixed Huffman code of HPACK from standard input, bit by bit, as examples/hpack.spf does.
local lengths = {[0] = 13}
for symbol = 32, 126 do lengths[symbol] = 7 end
lengths[92] = nil
local by_length = {
  [5] = "012aceiost", [6] = " %-./3456789=A_bdfghlmnpru", [8] = "&*,;XZ", [10] = "!\"()?",
  [11] = "'+|", [12] = "#>", [13] = "$@[]~", [14] = "^}", [15] = "<`{",
}
for length, letters in pairs(by_length) do
  for at = 1, #letters do lengths[letters:byte(at)] = length end
end

-- the symbol of each code that has one, by a 1 followed by the code
local symbol, code, first = {}, 0, 1
for length = 1, 15 do
  first = first * 2
  for letter = 0, 126 do
    if lengths[letter] == length then
      symbol[first + code] = string.char(letter)
      code = code + 1
    end
  end
  code = code * 2
end

local data = io.read("*a")
local out, bits = {}, 1
for at = 1, #data do
  local byte = data:byte(at)
  for _ = 1, 8 do
    local bit = byte >= 128 and 1 or 0
    byte = byte % 128 * 2
    bits = bits > 0 and 2 * bits + bit or 0
    if bits > 65535 then bits = 0 end
    local letter = symbol[bits]
    if letter then
      out[#out + 1] = letter
      bits = 1
    end
  end
end
io.write(table.concat(out))
local padding = 1
while padding < bits do padding = 2 * padding + 1 end
os.exit(bits == padding and bits <= 255 and 0 or 1)
