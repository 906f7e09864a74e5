#!/usr/bin/env bash
# Measures `lincheck` on recordings of one object whose clients are busy nearly always (bench/wide.py):
#   1. `check`: of each recording a sound one and one for each of its faults. It prints what the verdict has to be by the way the recording
#      was made (`no` alone where it isn't known of which prefix), its size, processor seconds (user and system) of one run, which gets
#      300 seconds, and the verdict; of registers also the seconds of the best plain algorithm that we know, with nothing proved (plain.cpp, by
#      g++ -O2), which gets 60.
#   2. `questions`: what they cost in `edit`, beside one register with five clients (bench/generate.sh): `pull`, the first `ask`, a
#      further `ask` (mean of 100), and an `ask` after an `append` of an invocation by a new process, which writes, or adds or enqueues a
#      number of its own (mean of 20 such pairs, which leave 20 operations open), with the first answer and the last. Processor seconds,
#      differences of runs with and without these commands, each run the least of three rounds; where a difference is less than what these
#      rounds differ by, it says less than what. Sets and fifos also under a budget of 4,096.
#   3. `keyed`: many compare-and-set registers (bench/keyed.py): `check --keyed`, and beside it `verify --keyed` of the empty order, which reads
#      the file and decides nothing. Processor seconds of one run each, and the verdict.
# The program is the repository's, or LINCHECK where that is set.
# usage: bench/wide.sh [EVENTS [RECORDING-CLIENTS ..]]   (default 20000 and all)
#        bench/wide.sh questions [EVENTS]
#        bench/wide.sh keyed [EVENTS]   (default 1000000)
set -eu
here=$(cd "$(dirname "$0")" && pwd)
program=${LINCHECK:-$here/../crates/lincheck/out/lincheck}
folder=$(mktemp -d)
trap 'rm -rf "$folder"' EXIT
[ -n "${LINCHECK:-}" ] || "$here/../lincheck" --help > "$folder/help" 2> "$folder/build" || { cat "$folder/build"; exit 1; }
file=$folder/history.edn
limit=300
seed=20261129

kind() { # recording
    case $1 in
        cas*) echo cas-register ;;
        *) echo "${1%%-*}" ;;
    esac
}

faults() { # recording
    case $1 in
        fifo*) echo lost twice ;;
        set*) echo missed ;;
        mutex*) echo shared ;;
        *) echo stale ;;
    esac
}

plain() { # recording: what the best plain algorithm that we know takes for the file of it, if it is one of a register
    local status=0 TIMEFORMAT='%U %S'
    [[ $1 = register* ]] || return 0
    [ -x "$folder/plain" ] || g++ -std=c++20 -O2 -o "$folder/plain" "$here/plain.cpp"
    { time timeout 60 "$folder/plain" "$file" > "$folder/plainly" 2>&1; } 2> "$folder/time" || status=$?
    if [ "$status" -gt 1 ]; then echo 'nothing within 60 seconds'; else awk '{ printf "%.2f", $1 + $2 }' "$folder/time"; fi
}

line() { # recording, clients, fault, events
    local status=0 said TIMEFORMAT='%U %S'
    "$here/wide.py" "$1" "$4" "$3" "$2" "$seed" "$folder/wanted" > "$file" || return 0
    { time timeout "$limit" "$program" check --kind "$(kind "$1")" "$file" > "$folder/printed" 2>&1; } 2> "$folder/time" || status=$?
    said=$(tail -n 1 "$folder/printed")
    [ "$status" -le 2 ] || said="nothing, status $status"
    [ "$status" -ne 124 ] || said="nothing within $limit seconds"
    cp "$folder/time" "$folder/own"
    awk -v name="$1, $2 clients, $4 events, $3" -v wanted="$(head -n 1 "$folder/wanted")" -v bytes="$(stat -c %s "$file")" -v said="$said" -v plain="$(plain "$1")" '{
        printf "| %s | %s | %.1f | %.2f | %s | %s |\n", name, wanted, bytes / 1e6, $1 + $2, said, plain }' "$folder/own"
}

check() { # events, then recordings with clients
    local events=$1 recording fault
    shift
    echo "| recording | has to be | MB | check s | prints | plain s |"
    echo "|---|---|---|---|---|---|"
    for recording in "$@"; do
        for fault in sound $(faults "$recording"); do
            line "${recording%-*}" "${recording##*-}" "$fault" "$events"
        done
    done
}

seconds() { # file of commands, then the program's words: the least processor time of three runs, and by how much the most is more
    local TIMEFORMAT='%U %S' commands=$1
    shift
    for _ in 1 2 3; do
        { time "$program" "$@" < "$commands" > "$folder/printed"; } 2>> "$folder/times" || true
    done
    awk '{print $1 + $2}' "$folder/times" | sort -n | awk 'NR == 1 { least = $1 } END { print least, $1 - least }'
    rm "$folder/times"
}

each() { # seconds with the commands, and without, how often they are given: seconds of one
    awk -v with="$1" -v without="$2" -v times="$3" 'BEGIN {
        split(with, a, " "); split(without, b, " "); more = a[1] - b[1]; noise = a[2] + b[2]
        if (noise < 0.001) noise = 0.001   # no less can be told
        format = times == 1 ? "%.3f" : "%.5f"
        printf (more < noise ? "< " : "") format "\n", (more < noise ? noise : more) / times }'
}

commands() { # function and value of an update, & for its process: files of commands, the last two of which go on from `first`
    : > "$folder/nothing"
    echo pull > "$folder/pull"
    printf 'pull\nask\n' > "$folder/first"
    { cat "$folder/first"; yes ask | head -n 100; } > "$folder/further"
    { cat "$folder/first"; seq 1000001 1000020 | sed "s/.*/append {:process &, :type :invoke, :f :$1, :value $2}\nask/"; } > "$folder/appends"
}

row() { # name, function and value of an update, kind, budget
    local nothing pull first further appends said words=(edit --kind "$4" --budget "$5" "$file")
    commands "$2" "$3"
    nothing=$(seconds "$folder/nothing" "${words[@]}")
    pull=$(seconds "$folder/pull" "${words[@]}")
    first=$(seconds "$folder/first" "${words[@]}")
    said=$(tail -n 1 "$folder/printed")
    further=$(seconds "$folder/further" "${words[@]}")
    appends=$(seconds "$folder/appends" "${words[@]}")
    echo "| $1, budget $5 | $(each "$pull" "$nothing" 1) | $(each "$first" "$pull" 1) | $said | $(each "$further" "$first" 100) |" \
        "$(each "$appends" "$first" 20) | $(tail -n 1 "$folder/printed") |"
}

busy() { # recording, clients, events, function and value of an update, budgets
    local budget
    "$here/wide.py" "$1" "$3" sound "$2" "$seed" > "$file"
    for budget in "${@:6}"; do
        row "$1, $2 clients" "$4" "$5" "$(kind "$1")" "$budget"
    done
}

questions() { # events
    echo "| recording, $1 events | pull s | first ask s | prints | further ask s | append and ask s | prints at last |"
    echo "|---|---|---|---|---|---|---|"
    "$here/generate.sh" "$1" > "$file"
    row "register of generate.sh, 5 clients" write 3 register 65536
    busy set-crashed 10 "$1" add '&' 65536 4096
    busy fifo-growing 10 "$1" enqueue '&' 65536 4096
    busy fifo-crashed 10 "$1" enqueue '&' 65536 4096
    busy cas-few 10 "$1" write 3 65536
    busy cas-few 5 "$1" write 3 65536
}

keyed() { # events
    local said TIMEFORMAT='%U %S'
    "$here/keyed.py" "$1" > "$file"
    { time "$program" check --keyed --kind cas-register "$file" > "$folder/printed"; } 2> "$folder/time" || true
    said=$(tail -n 1 "$folder/printed")
    { time "$program" verify --keyed --kind cas-register "$file" empty > "$folder/printed"; } 2>> "$folder/time" || true
    echo "| events | MB | check s | verify s | check / verify | prints |"
    echo "|---|---|---|---|---|---|"
    awk -v events="$1" -v bytes="$(stat -c %s "$file")" -v said="$said" '{ seconds[NR] = $1 + $2 }
        END { printf "| %s | %.1f | %.2f | %.2f | %.1f | %s |\n", events, bytes / 1e6, seconds[1], seconds[2], seconds[1] / seconds[2], said }' "$folder/time"
}

if [ "${1:-}" = keyed ]; then
    keyed "${2:-1000000}"
elif [ "${1:-}" = questions ]; then
    questions "${2:-20000}"
elif [ $# -gt 1 ]; then
    check "$@"
else
    check "${1:-20000}" register-few-{10,20,30} register-unique-{10,20,30} fifo-growing-{3,5,10} fifo-crashed-10 set-crashed-10 \
        cas-few-{5,10,20,50} cas-unique-{5,10,20,50} mutex-crashed-{5,20,50}
fi
