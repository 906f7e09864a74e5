#!/usr/bin/env bash
# Measures recordings whose values and keys are words beside the same recordings with integers: one register with five clients, and 40
# registers with 10. It prints a table: instructions a byte (valgrind --tool=callgrind) of `verify FILE empty`, which only reads, and of `check`,
# each also in times those of integers. Then the most memory (KB) that `check` holds of a recording of 1,000,000 events, or as many as are named,
# whose values are 100,000 different strings, beside one with integers.
# usage: bench/words.sh [EVENTS] [MOST]   (default 20000 1000000)
set -eu
here=$(cd "$(dirname "$0")" && pwd)
program=${LINCHECK:-$here/../crates/lincheck/out/lincheck}
folder=$(mktemp -d)
trap 'rm -rf "$folder"' EXIT
[ -n "${LINCHECK:-}" ] || "$here/../lincheck" --help > "$folder/help" 2> "$folder/build" || { cat "$folder/build"; exit 1; }
events=${1:-20000}
most=${2:-1000000}

# An operation takes effect when it completes. %d of KEY and VALUE is a number; an empty KEY stands for no keys.
recording() { # events, clients, keys, values, KEY, VALUE
    awk -v events="$1" -v clients="$2" -v keys="$3" -v values="$4" -v key_form="$5" -v value_form="$6" '
    function random(n) { seed = (seed * 1103515245 + 12345) % 2147483648; return int(seed / 65536) % n }
    function put(type, p, shown) {
        time += 1000 + random(900000)
        shown = value[p] == "nil" ? "nil" : sprintf(value_form, value[p])
        if (key_form != "") shown = "[" sprintf(key_form, key[p]) " " shown "]"
        printf "{:type :%s, :f :%s, :value %s, :process %d, :time %.0f, :index %d}\n", type, call[p], shown, p, time, count
        count++
    }
    BEGIN {
        seed = 20261129; time = 3291485317
        while (count < events) {
            p = random(clients)
            if (!(p in call)) {
                key[p] = random(keys)
                call[p] = random(2) ? "write" : "read"
                value[p] = call[p] == "write" ? (random(30000) * 7 + random(7)) % values : "nil"
                put("invoke", p)
            } else {
                if (call[p] == "write") state[key[p]] = value[p]
                else value[p] = (key[p] in state) ? state[key[p]] : "nil"
                put("ok", p)
                delete call[p]
            }
        }
    }'
}

instructions() { # command
    valgrind --tool=callgrind --callgrind-out-file=/dev/null "$@" 2>&1 > "$folder/printed" | awk '/Collected/ {print $NF}'
}

row() { # name, reference or nothing, options, recording
    local bytes read all
    bytes=$(stat -c %s "$folder/$4")
    read=$(instructions "$program" verify $3 "$folder/$4" empty)
    all=$(instructions "$program" check $3 "$folder/$4")
    awk -v name="$1" -v bytes="$bytes" -v read="$read" -v all="$all" -v of="$(cat "$folder/${2:-none}" 2> /dev/null || echo)" 'BEGIN {
        split(of, plain, " "); r = read / bytes; a = all / bytes
        printf "| %s | %.1f | %.2f | %.1f | %.2f |\n", name, r, plain[1] ? r / plain[1] : 1, a, plain[2] ? a / plain[2] : 1 }'
    awk -v bytes="$bytes" -v read="$read" -v all="$all" 'BEGIN { print read / bytes, all / bytes }' > "$folder/$4.told"
}

echo '| Recording | verify: instructions a byte | times integers | check: instructions a byte | times integers |'
echo '|---|---|---|---|---|'
recording "$events" 5 1 5 '' '%d' > "$folder/plain"
recording "$events" 5 1 5 '' ':v%d' > "$folder/keywords"
recording "$events" 5 1 5 '' '"value %d"' > "$folder/strings"
recording "$events" 10 40 5 '%d' '%d' > "$folder/keyed"
recording "$events" 10 40 5 ':k%d' ':v%d' > "$folder/keyed_keywords"
recording "$events" 10 40 5 '"key %d"' '"value %d"' > "$folder/keyed_strings"
row integers '' '' plain
row 'keywords for values' plain.told '' keywords
row 'strings for values' plain.told '' strings
row 'integers, keyed' '' --keyed keyed
row 'keywords for keys and values' keyed.told --keyed keyed_keywords
row 'strings for keys and values' keyed.told --keyed keyed_strings

memory() { # recording: the most KB that are resident
    /usr/bin/env python3 -c 'import resource, subprocess, sys
subprocess.run(sys.argv[1:], stdout=subprocess.DEVNULL)
print(resource.getrusage(resource.RUSAGE_CHILDREN).ru_maxrss)' "$program" check "$folder/$1"
}

recording "$most" 5 1 100000 '' '%d' > "$folder/plain"
recording "$most" 5 1 100000 '' '"value %d"' > "$folder/strings"
plain=$(memory plain)
words=$(memory strings)
echo
echo "$most events with 100,000 different values: $plain KB with integers, $words KB with strings, $(awk -v a="$words" -v b="$plain" 'BEGIN { printf "%.2f", a / b }') times"
