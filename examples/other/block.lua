-- A block in LuaJIT, whose FFI reads what the preprocessor makes of um.h: luajit examples/other/block.lua
local ffi = require "ffi"
local header = io.popen("gcc -E -P bindings/c/um.h")
ffi.cdef(header:read("*a"))
header:close()
local um = ffi.load("dist/x86_64-linux/libum.so.0")
local octets, bursts = ffi.new("uint8_t[23]", 3), ffi.new("uint8_t[4][148]")
local soft, report = ffi.new("int8_t[4][148]"), ffi.new("um_block_report")
assert(um.um_send_block(octets, 5, bursts))
for b = 0, 3 do for i = 0, 147 do soft[b][i] = bursts[b][i] == 0 and 127 or -127 end end
soft[1][10] = -soft[1][10]
assert(um.um_receive_block(ffi.cast("const int8_t (*)[148]", soft), report) and report.accepted == 1)
print(("tsc %d, %d wrong bit"):format(report.tsc, report.wrong_coded))
