local s, t = 1, 0
for i = 1, TURNS do
  s = (s * 3 + i) % 1000003
  if s > 500000 then
    t = t + 1
  end
end
print(s, t)
