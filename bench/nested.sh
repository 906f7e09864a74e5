#!/usr/bin/env bash
# Measures the memory that `lincheck check` takes for one map of 15.6 MB, most of which is a vector of vectors that tells nothing: the value
# of a read's invocation, the same in a pair with a key, and the value of another key. It prints a table; memory is the greatest resident
# size of a run, as /usr/bin/time tells it.
# usage: bench/nested.sh [PROGRAM]   (another program is given the file on its standard input)
set -eu
here=$(cd "$(dirname "$0")" && pwd)
folder=$(mktemp -d)
trap 'rm -rf "$folder"' EXIT
if [ $# -eq 0 ]; then
    "$here/../lincheck" --help > "$folder/help" 2> "$folder/build" || { cat "$folder/build"; exit 1; }
fi

line() { # name, what stands before the vector, what behind it, options
    local file=$folder/history.edn run
    { printf '{:process 0, :type :invoke, :f :read, %s' "$2"
      awk 'BEGIN { for (n = 0; n < 2600000; n++) printf "[%d %d] ", n % 10, n * 7 % 10 }'
      printf '%s}\n' "$3"; } > "$file"
    if [ "$program" ]; then run=("$program"); else run=("$here/../crates/lincheck/out/lincheck" check ${4:+"$4"} "$file"); fi
    /usr/bin/time -f %M -o "$folder/memory" "${run[@]}" < "$file" > "$folder/printed" || true
    awk -v name="$1" -v bytes="$(stat -c %s "$file")" -v said="$(tail -n 1 "$folder/printed")" 'END {
        printf "| %s | %.1f | %.1f | %.2f | %s |\n", name, bytes / 1e6, $1 * 1024 / 1e6, $1 * 1024 / bytes, said }' "$folder/memory"
}

program=${1:-}
echo "| the vector is | MB | resident MB | times the size | prints |"
echo "|---|---|---|---|---|"
line "the value of a read's invocation" ":value [" "]"
line "in a pair with a key" ":value [1 [" "]]" --keyed
line "the value of another key" ":other [" "]"
