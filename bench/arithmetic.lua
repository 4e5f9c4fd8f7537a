local s, c = 0, 0
for i = 0, 19999999 do
  local t = s + i
  s = t % 1000003
  if s == 7 then c = c + 1 end
end
print(s % 256)
