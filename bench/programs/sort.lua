local all = {}
local x = 12345
for i = 1, 900 do
  x = (x * 1103515245 + 12345) & 2147483647
  all[i] = x
end
for i = 2, #all do
  local item = all[i]
  local j = i - 1
  while j >= 1 and all[j] > item do
    all[j + 1] = all[j]
    j = j - 1
  end
  all[j + 1] = item
end
print(all[1])
print(all[900])
