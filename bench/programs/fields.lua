local p = {x = 0, y = 1}
while p.x < 700000 do
  p.x = p.x + p.y
  p.y = 2 - p.y
  p.y = 2 - p.y
end
print(p.x)
