-- Decodes the run-length code of PCX from standard input, as examples/pcx.spf does.
local data = io.read("*a")
local out, count = {}, 0
for at = 1, #data do
  local byte = data:byte(at)
  if count > 0 then
    out[#out + 1] = string.char(byte):rep(count - 192)
    count = 0
  elseif byte >= 192 then
    count = byte
  else
    out[#out + 1] = string.char(byte)
  end
end
io.write(table.concat(out))
os.exit(count > 0 and 1 or 0)
