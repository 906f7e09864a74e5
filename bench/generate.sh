#!/usr/bin/env bash
# Writes a recording of one register to standard output, a map a line as recorders write them.
# usage: generate.sh EVENTS [OK_PERCENT] [lines|vector] [ORDER_FILE]
# Five clients; an operation takes effect when it completes, so the completed ones in the order of their
# completions are a legal order, which goes to ORDER_FILE where one is named.
set -eu
events=${1:?number of events}
ok_percent=${2:-100}
shape=${3:-lines}
order=${4:-/dev/null}
awk -v events="$events" -v ok_percent="$ok_percent" -v shape="$shape" -v order="$order" '
function random(n) { seed = (seed * 1103515245 + 12345) % 2147483648; return int(seed / 65536) % n }
function put(type, f, value, process) {
    time += 1000 + random(900000)
    printf "{:type :%s, :f :%s, :value %s, :process %d, :time %.0f, :index %d}\n", type, f, value, process, time, count
    count++
}
function pair(at, reply) { printf "%s%d=%s", (pairs++ ? " " : ""), at, reply > order }
BEGIN {
    seed = 20261122; time = 3291485317; state = "nil"
    if (shape == "vector") print "["
    while (count < events) {
        p = random(5)
        if (!(p in begun)) {
            begun[p] = count
            call[p] = random(2) ? "write" : "read"
            value[p] = call[p] == "write" ? random(5) : "nil"
            put("invoke", call[p], value[p], p)
        } else {
            if (random(100) >= ok_percent) put("fail", call[p], value[p], p)
            else if (call[p] == "write") { state = value[p]; pair(begun[p], "done"); put("ok", "write", state, p) }
            else { pair(begun[p], state); put("ok", "read", state, p) }
            delete begun[p]
        }
    }
    if (shape == "vector") print "]"
}'
