#!/usr/bin/env bash
# Measures `lincheck check --kind unordered-queue` on generated recordings of one unordered queue with ten clients (bench/bags.py): numbers
# that are put in once each, numbers out of 100, and 50 dequeues that crashed; of each a recording that is linearizable, one in which a
# member is taken twice, and one in which a member is lost before a dequeue finds nothing. It prints a table: what the verdict has to be
# by the way the recording was made, its size, processor seconds (user and system) of one run, which gets 600 seconds, and the verdict.
# usage: bench/bags.sh [OPERATIONS..]   (default 100000 400000)
set -eu
here=$(cd "$(dirname "$0")" && pwd)
program=$here/../crates/lincheck/out/lincheck
folder=$(mktemp -d)
trap 'rm -rf "$folder"' EXIT
"$here/../lincheck" --help > "$folder/help" 2> "$folder/build" || { cat "$folder/build"; exit 1; }
[ $# -gt 0 ] || set -- 100000 400000

line() { # operations, numbers, fault
    local file=$folder/history.edn said wanted=no TIMEFORMAT='%U %S'
    [ "$3" = sound ] && wanted=yes
    "$here/bags.py" "$1" "$2" "$3" > "$file"
    { time timeout 600 "$program" check --kind unordered-queue "$file" > "$folder/printed"; } 2> "$folder/time" || true
    said=$(tail -n 1 "$folder/printed")
    awk -v name="$1 operations, $2, $3" -v wanted="$wanted" -v bytes="$(stat -c %s "$file")" -v said="${said:-nothing within 600 seconds}" '{
        printf "| %s | %s | %.1f | %.2f | %s |\n", name, wanted, bytes / 1e6, $1 + $2, said }' "$folder/time"
}

echo "| recording | has to be | MB | check s | prints |"
echo "|---|---|---|---|---|"
for operations in "$@"; do
    for numbers in unique few crashed; do
        for fault in sound twice lost; do
            line "$operations" "$numbers" "$fault"
        done
    done
done
