local bxor = require("bit").bxor
local a, s = {}, 0
for i = 0, 1023 do a[i] = 0 end
for i = 0, 19999999 do
  local j = i % 1024
  a[j] = a[j] + i
  s = bxor(s, a[j])
end
print(s % 256)
