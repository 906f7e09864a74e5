#!/usr/bin/env bash
# Measures `lincheck verify` beside md5sum and wc on generated recordings. It prints a table; times are processor seconds (user and system),
# the least of nine rounds, in each of which every recording is read once.
# usage: bench/measure.sh [EVENTS]   (default 1000000)
set -eu
here=$(cd "$(dirname "$0")" && pwd)
most=${1:-1000000}
folder=$(mktemp -d)
trap 'rm -rf "$folder"' EXIT
"$here/../lincheck" --help > "$folder/help" 2> "$folder/build" || { cat "$folder/build"; exit 1; }
program=$here/../crates/lincheck/out/lincheck
rows=0

recording() { # name, order, options; the recording itself on standard input
    rows=$((rows + 1))
    cat > "$folder/$rows.edn"
    printf '%s' "$1" > "$folder/$rows.name"
    printf '%s' "$2" > "$folder/$rows.order"
    printf '%s' "${3:-}" > "$folder/$rows.options"
}

# puts the words of the program's run on a recording into `run`
words_of() { # row
    local options
    read -r -a options < "$folder/$1.options" || true
    run=("$program" verify "${options[@]}" "$folder/$1.edn" "$(cat "$folder/$1.order")")
}

# adds the processor seconds of a command to a file
seconds() { # file, command
    local TIMEFORMAT='%U %S' to=$1
    shift
    { time "$@" > "$folder/printed"; } 2> "$folder/time" || true
    awk '{print $1 + $2}' "$folder/time" >> "$to"
}

measure() { # row
    local file=$folder/$1.edn
    seconds "$folder/$1.md5" md5sum "$file"
    seconds "$folder/$1.lines" wc -l "$file"
    words_of "$1"
    seconds "$folder/$1.own" "${run[@]}"
    cp "$folder/printed" "$folder/$1.printed"
}

least() { sort -n "$1" | head -n 1; }

line() { # row
    local file=$folder/$1.edn bytes limit memory=yes
    bytes=$(stat -c %s "$file")
    limit=$(( bytes * 4 / 1024 + 16384 ))
    words_of "$1"
    (ulimit -v "$limit"; exec "${run[@]}") > "$folder/within" 2>&1 || true
    cmp -s "$folder/$1.printed" "$folder/within" || memory=no
    awk -v name="$(cat "$folder/$1.name")" -v bytes="$bytes" -v md5="$(least "$folder/$1.md5")" -v lines="$(least "$folder/$1.lines")" \
        -v own="$(least "$folder/$1.own")" -v memory="$memory" -v said="$(cat "$folder/within")" 'BEGIN {
        printf "| %s | %.1f | %.2f | %.2f | %.2f | %.1f | %.1f | %s | %s |\n", name, bytes / 1e6, lines, md5, own, (md5 > 0 ? own / md5 : 0), own * 1e9 / bytes, memory, said }'
}

for events in 10000 100000 "$most"; do
    "$here/generate.sh" "$events" > "$folder/lines.edn"
    recording "$events events, \`empty\`" empty < "$folder/lines.edn"
done
sed 's/^/#jepsen.history.Op/' "$folder/lines.edn" > "$folder/shaped.edn"
recording "$most events behind a tag, \`empty\`" empty < "$folder/shaped.edn"
sed 's/:value \([^,]*\),/:value [7 \1],/' "$folder/lines.edn" > "$folder/shaped.edn"
recording "$most events with keys, \`empty\`" empty --keyed < "$folder/shaped.edn"
"$here/generate.sh" 100000 26 lines "$folder/order" > "$folder/ordered.edn"
recording "100000 events, a legal order of $(stat -c %s "$folder/order") bytes" "$(cat "$folder/order")" < "$folder/ordered.edn"
for shape in lines vector; do
    "$here/generate.sh" 195000 100 "$shape" > "$folder/shaped.edn"
    recording "195000 events in ${shape/vector/one vector}, \`empty\`" empty < "$folder/shaped.edn"
done
# A backslash in a text makes a map unusual.
"$here/generate.sh" 160000 100 vector | sed '1s/^/#h /; s/:index/:note "a \\\\ b", :index/' > "$folder/unusual.edn"
recording "160000 unusual events in one vector behind a tag, \`empty\`" empty < "$folder/unusual.edn"

for round in 1 2 3 4 5 6 7 8 9; do
    for row in $(seq "$rows"); do measure "$row"; done
done
echo "| recording and order | MB | wc -l s | md5sum s | verify s | verify / md5sum | ns a byte | within 4 times the file and 16 MiB | prints |"
echo "|---|---|---|---|---|---|---|---|---|"
for row in $(seq "$rows"); do line "$row"; done
