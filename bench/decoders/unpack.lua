-- Unpacks a PackBits file from standard input.
local data = io.read("*a")
local out, at, size = {}, 1, #data
while at <= size do
  local header = data:byte(at)
  if header < 128 then
    out[#out + 1] = data:sub(at + 1, at + 1 + header)
    at = at + 2 + header
  elseif header > 128 then
    out[#out + 1] = data:sub(at + 1, at + 1):rep(257 - header)
    at = at + 2
  else
    at = at + 1
  end
end
io.write(table.concat(out))
