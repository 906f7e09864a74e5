#!/usr/bin/env bash
# Measures `lincheck explain` beside `check` on generated recordings of one register with five clients, whose last read returns what nothing
# wrote: processor seconds (user and system), the least of three rounds, and the most memory that `explain` held, in times the file
# (ulimit -v, so address space, less 16 MiB).
# usage: bench/explain.sh [EVENTS..]   (default 10000 100000 1000000)
set -eu
here=$(cd "$(dirname "$0")" && pwd)
program=$here/../crates/lincheck/out/lincheck
folder=$(mktemp -d)
trap 'rm -rf "$folder"' EXIT
"$here/../lincheck" --help > "$folder/help" 2> "$folder/build" || { cat "$folder/build"; exit 1; }
[ $# -gt 0 ] || set -- 10000 100000 1000000

seconds() { # command: the least processor time of three runs
    local TIMEFORMAT='%U %S'
    for _ in 1 2 3; do
        { time "$@" > "$folder/printed"; } 2>> "$folder/times" || true
    done
    awk '{print $1 + $2}' "$folder/times" | sort -n | head -n 1
    rm "$folder/times"
}

is_explained() { # KiB: whether the explanation comes with so much memory
    (ulimit -v $(($1 + 16384)); "$program" explain "$folder/history.edn" > "$folder/printed" 2> /dev/null) || [ $? = 1 ]
}

memory() { # the least memory with which the explanation comes, in KiB, to one in 50
    local low=1 high=4194304 middle
    while [ $((high - low)) -gt $((high / 50)) ]; do
        middle=$(((low + high) / 2))
        if is_explained "$middle"; then high=$middle; else low=$middle; fi
    done
    echo "$high"
}

printf '%10s %10s %10s %8s %8s\n' events check explain ratio memory
for events in "$@"; do
    {
        "$here/generate.sh" $((events - 2))
        printf '{:process 9, :type :invoke, :f :read, :value nil}\n{:process 9, :type :ok, :f :read, :value 99}\n'
    } > "$folder/history.edn"
    check=$(seconds "$program" check "$folder/history.edn")
    explain=$(seconds "$program" explain "$folder/history.edn")
    awk -v events="$events" -v check="$check" -v explain="$explain" -v memory="$(memory)" -v bytes="$(stat -c %s "$folder/history.edn")" \
        'BEGIN { printf "%10d %10.3f %10.3f %8.2f %8.2f\n", events, check, explain, explain / check, memory * 1024 / bytes }'
done
