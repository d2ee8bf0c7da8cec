local a, b = 1, 7
for i = 0, 499999 do
  a = (a * 31 + b) & 65535
  b = (b ~ (a << 3)) % 10007 + (i >> 2)
end
print(a)
print(b)
