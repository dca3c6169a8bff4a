-- A script for Lua 5.4 (docs/FOREIGN.md): integers of 64 bits and doubles, closures, coroutines, errors, patterns, sorting.
local function primes(most)
  local is_not, found = {}, {}
  for number = 2, most do
    if not is_not[number] then
      found[#found + 1] = number
      for other = number * number, most, number do is_not[other] = true end
    end
  end
  return found
end

local function fibonacci()
  return coroutine.wrap(function()
    local a, b = 0, 1
    while true do
      coroutine.yield(a)
      a, b = b, a + b
    end
  end)
end

local found = primes(500)
print("primes", #found, found[#found])

local next_one, last = fibonacci(), 0
for _ = 1, 90 do last = next_one() end
print("fibonacci", last, math.maxinteger, math.mininteger // -1, 7 // -2, 7 % -2)

local sum = 0.0
for i = 1, 200 do sum = sum + 1 / (i * i) end
print("doubles", sum, math.sqrt(6 * sum), math.sin(1), math.exp(1), 2 ^ 0.5, 1e300 * 1e10, -(0 / 0) ~= 0)
print(string.format("%.17g %a %10.3f|%-8s|%5d|%x", 0.1, 1.5, math.pi, "left", 42, 255))

local words = {}
for word in ("the quick brown fox jumps over the lazy dog"):gmatch("%a+") do words[#words + 1] = word end
table.sort(words, function(a, b) return #a < #b or #a == #b and a < b end)
print("sorted", table.concat(words, " "))
print(("hello world"):gsub("o", { o = "0" }), ("%d+"):rep(2, ","), ("key = value"):match("(%w+)%s*=%s*(%w+)"))
print(string.pack("<i4d", 7, 1.25):byte(1, -1))

local object = setmetatable({ n = 3 }, { __add = function(a, b) return a.n + b end, __index = function(_, key) return key .. "?" end })
print("metatables", object + 4, object.missing)
print(pcall(function() error({ code = 5 }) end), select(2, pcall(function() return 1 + nil end)))
print(load("return 1 << 62 | 1")(), math.tointeger(2 ^ 53), 3 | 4.0, utf8.char(72, 228, 8364), utf8.len("häß"))
local list = {}
for i = 1, 300 do list[i] = (i * 7919) % 1009 end
table.sort(list)
print("list", list[1], list[150], list[300], collectgarbage("count") > 0)
