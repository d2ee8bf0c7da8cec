local length = 0
for turn = 1, 2000 do
  local text = ''
  for i = 0, 59 do text = text .. 'x' .. i end
  length = length + #text
end
print(length)
