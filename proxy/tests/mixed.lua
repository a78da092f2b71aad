-- A script for wrk: asks for each line 'PATH [NAME VALUE]' of a file in turn, with the header NAME, until as many answers have come as
-- the first word says: wrk .. -s mixed.lua URL -- ANSWERS FILE

local here = debug.getinfo(1, "S").source:match("^@(.*/)")
dofile(here .. "../../examples/tile_server/tests/count.lua")
local init_count = init

function init(words)
    init_count(words)
    requests, last = {}, 0
    for line in io.lines(words[2]) do
        local path, name, value = line:match("^(%S+) ?(%S*) ?(.*)$")
        table.insert(requests, wrk.format("GET", path, name ~= "" and { [name] = value } or {}))
    end
end

function request()
    last = last % #requests + 1
    return requests[last]
end
