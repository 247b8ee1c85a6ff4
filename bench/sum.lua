-- The loop of machine_bench in Lua: s = 0; i = 0; while (i < rounds) { s = s + i * 3; i = i + 1; }
local rounds = tonumber(arg[1]) or 20000
local s, i = 0, 0
while i < rounds do
  s = s + i * 3
  i = i + 1
end
s = s & 0xffffffff
if s >= 0x80000000 then s = s - 0x100000000 end
print("value " .. s)
