local all = {}
for i = 0, 999 do all[#all + 1] = i end
local sum = 0
for turn = 1, 500 do
  for i = 1, #all do sum = sum + all[i] end
end
print(sum)
