#!/usr/bin/env bash
# Measures `lincheck check` beside `verify FILE empty`, which only reads, md5sum, and the best plain algorithm that we know, with nothing
# proved (plain.cpp, by g++ -O2), on generated histories: one register with five clients, the same with compare-and-set, 100 registers, one
# for each key, with 50 clients, compare-and-set registers as tests of etcd make them (keyed.py), one register whose last read finds what nothing
# wrote, and of locks and queues those of wide.py, which the plain algorithm doesn't decide (`-`). It prints a table: processor seconds (user and
# system), the least of three rounds; `check` in times of `plain`; the most memory that `check` held, in times the file (ulimit -v, so address
# space, less 16 MiB); and instructions an event (valgrind --tool=callgrind, on the first 10,000 events) that `check` takes beyond `verify`,
# and in all.
# usage: bench/check.sh [EVENTS..]   (default 10000 100000 1000000)
set -eu
here=$(cd "$(dirname "$0")" && pwd)
program=$here/../crates/lincheck/out/lincheck
folder=$(mktemp -d)
trap 'rm -rf "$folder"' EXIT
"$here/../lincheck" --help > "$folder/help" 2> "$folder/build" || { cat "$folder/build"; exit 1; }
[ $# -gt 0 ] || set -- 10000 100000 1000000

seconds() { # command: the least processor time of three runs
    local TIMEFORMAT='%U %S'
    for _ in 1 2 3; do
        { time "$@" > "$folder/printed"; } 2>> "$folder/times" || true
    done
    awk '{print $1 + $2}' "$folder/times" | sort -n | head -n 1
    rm "$folder/times"
}

instructions() { # command
    valgrind --tool=callgrind --callgrind-out-file=/dev/null "$@" 2>&1 > "$folder/counted" | awk '/Collected/ {print $NF}'
}

keyed() { # events: operations of 50 clients on 100 registers, each taking effect when it completes
    awk -v events="$1" '
    function random(n) { seed = (seed * 1103515245 + 12345) % 2147483648; return int(seed / 65536) % n }
    function put(type, p) {
        time += 1000 + random(900000)
        printf "{:type :%s, :f :%s, :value [%d %s], :process %d, :time %.0f, :index %d}\n", type, call[p], key[p], value[p], p, time, count
        count++
    }
    BEGIN {
        seed = 20261123; time = 3291485317
        while (count < events) {
            p = random(50)
            if (!(p in call)) {
                key[p] = random(100)
                call[p] = random(2) ? "write" : "read"
                value[p] = call[p] == "write" ? random(5) : "nil"
                put("invoke", p)
            } else {
                if (call[p] == "write") state[key[p]] = value[p]
                else value[p] = (key[p] in state) ? state[key[p]] : "nil"
                put("ok", p)
                delete call[p]
            }
        }
    }'
}

swaps() { # events: one register whose five clients read, write, and compare and set, each taking effect when it completes
    awk -v events="$1" '
    function random(n) { seed = (seed * 1103515245 + 12345) % 2147483648; return int(seed / 65536) % n }
    function put(type, p) {
        time += 1000 + random(900000)
        printf "{:type :%s, :f :%s, :value %s, :process %d, :time %.0f, :index %d}\n", type, call[p], value[p], p, time, count
        count++
    }
    BEGIN {
        seed = 20261201; time = 3291485317; state = "nil"
        while (count < events) {
            p = random(5)
            if (!(p in call)) {
                call[p] = substr("read cas  write", 1 + 5 * random(3), 5)
                sub(/ +$/, "", call[p])
                from[p] = random(5); to[p] = random(5)
                value[p] = call[p] == "read" ? "nil" : call[p] == "write" ? to[p] : "[" from[p] " " to[p] "]"
                put("invoke", p)
            } else {
                type = "ok"
                if (call[p] == "write") state = to[p]
                else if (call[p] == "read") value[p] = state
                else if (from[p] == state) state = to[p]
                else type = "fail"
                put(type, p)
                delete call[p]
            }
        }
    }'
}

held() { # the program's words: the least whole number of times the file within which it prints the same
    local bytes times
    bytes=$(stat -c %s "$file")
    for times in 1 2 3 4 5 6 7 8; do
        (ulimit -v $(( bytes * times / 1024 + 16384 )); exec "$program" "$@") > "$folder/within" 2>&1 || true # (a no has a status of its own)
        if cmp -s "$folder/printed" "$folder/within"; then
            echo "$times"
            return
        fi
    done
    echo more
}

line() { # name, whether the plain algorithm decides it, then words beside the file
    local name=$1 plainly=$2 sum reading checking plain=- ratio=- more all few=$folder/few.edn words=()
    shift 2
    sum=$(seconds md5sum "$file")
    reading=$(seconds "$program" verify "$@" "$file" empty)
    checking=$(seconds "$program" check "$@" "$file")
    if [ "$plainly" = yes ]; then
        [ "${1:-}" != --keyed ] || words=(--keyed)
        plain=$(seconds "$folder/plain" "${words[@]}" "$file")
        ratio=$(awk -v own="$checking" -v plain="$plain" 'BEGIN { printf "%.2f", own / (plain > 0 ? plain : 0.001) }')
    fi
    head -n 10000 "$file" > "$few"
    all=$(instructions "$program" check "$@" "$few")
    more=$(( all - $(instructions "$program" verify "$@" "$few" empty) ))
    "$program" check "$@" "$file" > "$folder/printed" || true
    echo "| $name | $sum | $reading | $checking | $plain | $ratio | $(held check "$@" "$file") | $((more / $(wc -l < "$few"))) of $((all / $(wc -l < "$few"))) | $(tail -n 1 "$folder/printed") |"
}

g++ -std=c++20 -O2 -o "$folder/plain" "$here/plain.cpp"
echo "| history | md5sum s | verify s | check s | plain s | check / plain | memory, times the file | instructions an event, beyond reading | prints |"
echo "|---|---|---|---|---|---|---|---|---|"
file=$folder/history.edn
for events in "$@"; do
    "$here/generate.sh" "$events" > "$file"
    line "one register, 5 clients, $events events" yes
    # the last read finds what nothing wrote
    tac "$file" | awk '!done && /:type :ok, :f :read/ { sub(/:value [^,]*/, ":value 77"); done = 1 } { print }' | tac > "$folder/wrong.edn"
    mv "$folder/wrong.edn" "$file"
    line "the same, whose last read finds what nothing wrote" yes
done
for events in "$@"; do
    swaps "$events" > "$file"
    line "one compare-and-set register, 5 clients, $events events" yes --kind cas-register
done
for events in "$@"; do
    keyed "$events" > "$file"
    line "100 registers, 50 clients, $events events" yes --keyed
done
for events in "$@"; do
    "$here/keyed.py" "$events" > "$file"
    line "compare-and-set registers of 250 events, 10 clients each, $events events" yes --keyed --kind cas-register
done
for events in "$@"; do
    "$here/wide.py" mutex-crashed "$events" sound 5 > "$file"
    line "one lock, 5 clients, $events events" no --kind mutex
done
for events in "$@"; do
    "$here/wide.py" fifo-growing "$events" sound 5 > "$file"
    line "one queue, 5 clients, $events events" no --kind fifo
done
