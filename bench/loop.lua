-- The loop of bench/images.py, in Lua: loop.lua N prints nanoseconds of the processor's time, 0 and its result.
local function loop(n)
  local i, a, b, one = 0, 0, 0, 0
  while i < n do
    one = 1
    a = a + i
    b = a - b
    i = i + one
  end
  return a, b
end

local from = os.clock()
local a, b = loop(tonumber(arg[1]))
print(string.format("%.0f 0 %d", (os.clock() - from) * 1e9, (a + b) & 0xffffffff))
