local text = 'the quick brown fox jumps over the lazy dog'
local sum = 0
for turn = 1, 10000 do
  for i = 1, #text do sum = sum + text:byte(i) end
end
print(sum)
