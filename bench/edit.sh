#!/usr/bin/env bash
# Measures `lincheck edit` on generated histories of one register with five clients, in processor seconds (user and system, the least of
# three rounds):
#   1. a question after each of EVENTS appended events, for 4,000 and 40,000 events: microseconds an event, and those of the best plain
#      algorithm that we know, with nothing proved, in one run over a file of these events (plain.cpp, by g++ -O2);
#   2. a question after a replaced event: one of the last 1,000 of 100,000 events is replaced and the history asked again, 1,000 times,
#      against the first question on that history: by another event, which the first one then replaces again; and, 100 times as
#      often, by an equal one; beside them plain.cpp, which has to begin anew, once its events are read;
#   3. many keys: 1,000,000 events of 100 keys and of 10,000 keys, read and asked once.
# usage: bench/edit.sh [appends|replaces|keys ..]   (default all three)
set -eu
here=$(cd "$(dirname "$0")" && pwd)
program=$here/../crates/lincheck/out/lincheck
folder=$(mktemp -d)
trap 'rm -rf "$folder"' EXIT
"$here/../lincheck" --help > "$folder/help" 2> "$folder/build" || { cat "$folder/build"; exit 1; }
[ $# -gt 0 ] || set -- appends replaces keys
g++ -std=c++20 -O2 -o "$folder/plain" "$here/plain.cpp"

seconds() { # standard input, then a command: the least processor time of three runs
    local TIMEFORMAT='%U %S' commands=$1
    shift
    for _ in 1 2 3; do
        { time "$@" < "$commands" > "$folder/printed"; } 2>> "$folder/times" || true
    done
    awk '{print $1 + $2}' "$folder/times" | sort -n | head -n 1
    rm "$folder/times"
}

appends() {
    echo "| events appended, each followed by a question | s | microseconds an event | plain, microseconds an event |"
    echo "|---|---|---|---|"
    for events in 4000 40000; do
        "$here/generate.sh" "$events" > "$folder/history.edn"
        sed 's/^/append /; a ask' "$folder/history.edn" > "$folder/commands"
        spent=$(seconds "$folder/commands" "$program" edit)
        plain=$(seconds /dev/null "$folder/plain" "$folder/history.edn")
        awk -v n="$events" -v s="$spent" -v p="$plain" 'BEGIN { printf "| %d | %s | %.1f | %.1f |\n", n, s, s * 1000000 / n, p * 1000000 / n }'
    done
}

replaces() {
    local events=100000 rounds
    "$here/generate.sh" "$events" > "$folder/history.edn"
    echo pull > "$folder/pull"
    printf 'pull\nask\n' > "$folder/first"
    reading=$(seconds "$folder/pull" "$program" edit "$folder/history.edn")
    first=$(seconds "$folder/first" "$program" edit "$folder/history.edn")
    echo "| $events events | s | first / again |"
    echo "|---|---|---|"
    awk -v r="$reading" -v f="$first" 'BEGIN { printf "| first question | %.3f | |\n", f - r }'
    for how in "another one and put back" "an equal one"; do
        rounds=1
        [ "$how" = "an equal one" ] && rounds=100   # one alone takes less time than can be told
        { cat "$folder/first"; tail -n 1000 "$folder/history.edn" | awk -v n="$events" -v rounds="$rounds" '{ map = $0; sub(/:process [0-9]+/, ":process 9", map)
            of[NR] = sprintf("replace %d %s\nask", n - 1001 + NR, $0)
            if (rounds == 1) of[NR] = sprintf("replace %d %s\n%s", n - 1001 + NR, map, of[NR]) }
            END { while (rounds-- > 0) for (i = 1; i <= 1000; i++) print of[i] }'; } > "$folder/again"
        again=$(seconds "$folder/again" "$program" edit "$folder/history.edn")
        awk -v r="$reading" -v f="$first" -v a="$again" -v how="$how" -v n="$((rounds * 1000))" 'BEGIN {
            printf "| an event replaced by %s, and asked again (mean of %d) | %.6f | %.0f |\n", how, n, (a - f) / n, (f - r) * n / (a - f) }'
        tail -n 1 "$folder/printed"
    done
    echo "| plain, anew | $("$folder/plain" --again 100 "$folder/history.edn" | tail -n 1) | |"
}

keys() {
    printf 'pull\nask\n' > "$folder/first"
    echo pull > "$folder/pull"
    echo "| 1,000,000 events | read s | first question s |"
    echo "|---|---|---|"
    for count in 100 10000; do
        awk -v keys="$count" 'BEGIN { for (i = 0; i < 500000; i++) { key = i % keys; p = i % 50; v = int(i / keys) % 5
            printf "{:process %d, :type :invoke, :f :write, :value [%d %d]}\n{:process %d, :type :ok, :f :write, :value [%d %d]}\n", p, key, v, p, key, v } }' > "$folder/keys.edn"
        reading=$(seconds "$folder/pull" "$program" edit --keyed "$folder/keys.edn")
        all=$(seconds "$folder/first" "$program" edit --keyed "$folder/keys.edn")
        echo "| $count keys | $reading | $(awk -v a="$all" -v r="$reading" 'BEGIN { printf "%.3f", a - r }') |"
    done
}

for part in "$@"; do "$part"; done
