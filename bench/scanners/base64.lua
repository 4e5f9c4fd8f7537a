-- Decodes base 64 in lines from standard input, as examples/base64.spf does.
local function six(byte)
  if byte >= 65 and byte <= 90 then return byte - 65 end
  if byte >= 97 and byte <= 122 then return byte - 71 end
  if byte >= 48 and byte <= 57 then return byte + 4 end
  if byte == 43 then return 62 end
  if byte == 47 then return 63 end
end

local power = {[0] = 1, [2] = 4, [4] = 16, [6] = 64}
local data = io.read("*a")
local out, count, bits = {}, 0, 0
for at = 1, #data do
  local byte = data:byte(at)
  if byte == 61 then
    count = 0
  elseif byte ~= 10 then
    local value = six(byte)
    if not value then os.exit(1) end
    bits = (bits * 64 + value) % 4096
    count = count + 6
    if count >= 8 then
      count = count - 8
      out[#out + 1] = string.char(math.floor(bits / power[count]) % 256)
    end
  end
end
io.write(table.concat(out))
