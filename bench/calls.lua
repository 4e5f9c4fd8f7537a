local function f(x, y)
  local z = x + y
  return z % 1000003
end
local s = 0
for i = 0, 19999999 do s = f(s, i) end
print(s % 256)
