-- A script for wrk, which counts time and not requests: it ends after as many answers as its first word says, and writes what was
-- measured as a line of JSON.

local ffi = require("ffi")
ffi.cdef("int getpid(void); int kill(int process, int signal);")
local SIGINT = 2

local threads = {}

function setup(thread)
    table.insert(threads, thread)
end

function init(words)
    limit, answers, others = tonumber(words[1]), 0, 0
end

function response(status)
    answers = answers + 1
    if status ~= 200 then
        others = others + 1
    end
    if answers == limit then
        wrk.thread:stop()
        -- (wrk itself sleeps until its time is over, or this signal comes)
        ffi.C.kill(ffi.C.getpid(), SIGINT)
    end
end

function done(summary, latency)
    local others = 0
    for _, thread in ipairs(threads) do
        others = others + thread:get("others")
    end
    local errors = summary.errors
    print(string.format(
        '{"requests":%d,"other_than_200":%d,"socket_errors":%d,"seconds":%.6f,"p50":%.3f,"p99":%.3f}',
        summary.requests, others, errors.connect + errors.read + errors.write + errors.timeout,
        summary.duration / 1e6, latency:percentile(50) / 1e3, latency:percentile(99) / 1e3))
end
