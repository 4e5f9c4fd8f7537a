-- Lists the names of a message's header fields from standard input, as examples/headers.spf does.
local data = io.read("*a")
local out, fresh = {}, true
for at = 1, #data do
  if fresh then
    local stop = at
    while stop <= #data and data:byte(stop) > 32 and data:byte(stop) ~= 58 do stop = stop + 1 end
    if stop > at and stop <= #data and data:byte(stop) == 58 then
      out[#out + 1] = data:sub(at, stop - 1)
      out[#out + 1] = "\n"
    end
  end
  fresh = data:byte(at) == 10
end
io.write(table.concat(out))
