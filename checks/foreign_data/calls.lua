-- Makes the calls of checks/foreign by LuaJIT. Arguments: the header, the library, and the file that `packed` of checks/foreign writes.
-- Prints a line for each call whose answer, or what it writes, is another.
local ffi, bit = require "ffi", require "bit"
local header, library, calls = ...
local file = assert(io.open(header)); ffi.cdef(file:read "*a"); file:close()
local um = ffi.load(library)

local file = assert(io.open(calls, "rb"))
local octets, at = file:read "*a", 1
file:close()

local function text(count)
	at = at + count
	return octets:sub(at - count, at - 1)
end

local function number()
	local a, b, c, d = text(4):byte(1, 4)
	return a + 256 * b + 65536 * c + 16777216 * d
end

while at <= #octets do
	local length, count = number(), number()
	local name, answer = text(length), number()
	local given, wanted = {}, {}
	for i = 1, count do
		if number() == 1 then
			local size = number()
			given[i] = ffi.new("uint8_t[?]", size)
			ffi.copy(given[i], text(size), size)
			wanted[i] = text(size)
		else
			given[i] = number()
		end
	end
	local pointers = {}
	for i = 1, count do
		pointers[i] = wanted[i] and ffi.cast("void *", given[i]) or given[i]
	end
	local found = um[name](unpack(pointers, 1, count))
	found = found == true and 1 or found and tonumber(found) or 0
	if found ~= answer then
		print(("%s by LuaJIT answers %d in place of %d"):format(name, found, answer))
	end
	for i, after in pairs(wanted) do
		if ffi.string(given[i], #after) ~= after then
			print(("%s by LuaJIT writes something else"):format(name))
		end
	end
end
