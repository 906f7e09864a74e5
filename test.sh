#!/usr/bin/env bash
# usage: ./test.sh           the gate: first all that is seen without a proof, then each proof, and beside these the edits that have to be refused
#        ./test.sh quick     what is seen without a proof: layout, imports, what the promises stand on, and the program on rows, pages and histories
#        ./test.sh --anew    the gate from nothing: what earlier runs on this machine kept, and the ledger of refused edits, count for nothing
#
# The gate begins with whether built/ is of this source, and ends with whether the program there is, byte for byte, the one that it has just built
# from what was proved: so what was seen of the one in the beginning was seen of the other. The last line counts all.
set -u
cd "$(dirname "$0")"
mode=${1:-gate}
case $#:$mode in 0:gate | 1:quick | 1:--anew) ;; *) sed -n '2,5s/^# \{0,1\}//p' "$0" >&2; exit 2 ;; esac
room=$(mktemp -d)
log=$room/log
edits=''
: > "$log"
trap '[ -z "$edits" ] || kill "$edits" 2> /dev/null; wait; rm -rf "$room"' EXIT

run() { # script, words: its last line counts
    echo "== $*"
    "$@" | tee -a "$log"
    [ "${PIPESTATUS[0]}" = 0 ] || exit 1
}

see_layout() {
    local rattle
    rattle=$(dirname "$(readlink -f "$(command -v rt)")")/rattle
    find crates -path '*/out' -prune -o \( -name '*.rt' -o -name '*.antt' \) -print0 | xargs -0 "$rattle" fmt --check > "$room/layout" 2>&1 && return
    grep ' is not in the layout$' "$room/layout" || cat "$room/layout"
    echo 'rt fmt in the folder of the crate lays it out'
    exit 1
}

see_program() { # a program, for all that runs one
    export LINCHECK=$1
    for script in versions.py rows.py readme.sh watch.sh generated.sh edits.py drawn.py items.py recordings.py explain.py refutations.py pictures.py progress.py growths.py memory.py adapters.py adapters_clojure.py static.sh; do
        run "tests/$script"
    done
}

see_library() { # the library for C, over the crates that were proved here
    built/library.sh "$room/library"
    case $? in
        0) LIBLINCHECK=$room/library run tests/library.py ;;
        3) ;; # (it says why there is none)
        *) exit 1 ;;
    esac
}

see_all() {
    see_layout
    for script in imports.py crates.py closure.py named.py ledger.py examples.py; do run "tests/$script"; done
    if built/fits.sh source program; then
        see_program "$PWD/built/lincheck"
    else
        echo 'built/ has no program of this source: one is built, unproved and slow, for what is quickly seen'
        tests/unproved.py "$room/lincheck" || exit 1
        export LINCHECK=$room/lincheck
        run tests/rows.py --quick
        run tests/readme.sh
    fi
}

count() { awk '/^[0-9]+ passed, [0-9]+ failed/ { passed += $1; failed += $3 } END { printf "%d passed, %d failed\n", passed, failed }' "$log"; }

if [ "$mode" = quick ]; then
    see_all
    count
    exit
fi

built/fits.sh source program || { echo './build.py --renew puts the program of this source into built/, once it is proved (rt ci, or ./build.py itself)'; exit 1; }
anew=''
[ "$mode" = gate ] || anew=--anew
see_all
unset LINCHECK

# By itself rt sets far more memory aside for a large crate than its check takes (0.7 to 2.5 GB), and leaves processors idle meanwhile.
memory=$(($(awk '/^MemAvailable/ { print $2 }' /proc/meminfo) * 1024))
limit=$(cat /sys/fs/cgroup/memory.max 2> /dev/null)
[[ $limit =~ ^[0-9]+$ ]] && [ "$limit" -lt "$memory" ] && memory=$limit
checks=$((memory / 3000000000))
[ "$checks" -gt "$(nproc)" ] && checks=$(nproc)
[ "$checks" -lt 1 ] && checks=1

# The edits are tried on what the proofs leave idle of the processors.
: > "$room/proofs"
TMPDIR=$room tests/must_fail.py $anew --follow "$room/proofs" > "$room/tried" 2>&1 &
edits=$!
RT_JOBS=${RT_JOBS:-$checks} rt ci $anew | tee -a "$room/proofs" "$log"
[ "${PIPESTATUS[0]}" = 0 ] || exit 1

echo '== built/lincheck'
made=$PWD/crates/lincheck/out/lincheck
built/fits.sh kit
if cmp built/lincheck "$made"; then
    echo '1 passed, 0 failed' | tee -a "$log"
    run tests/static.sh
elif [ "$(sed -n 's/^kit //p' built/OF)" = "$(rt version)" ]; then
    echo 'built/lincheck is not what this source makes: ./build.py --renew puts that there'
    exit 1
else
    # (a kit of the same logic proves the same, and may still compile it otherwise)
    echo 'another kit made it, so it need not have the same bytes; what was seen of it is seen of the one that was built here'
    see_program "$made"
fi
LINCHECK=$made see_library
echo '== tests/must_fail.py'
tail -n +1 -f --pid="$edits" "$room/tried" | tee -a "$log"
wait "$edits" || exit 1
edits=''
times > "$room/times"
awk 'NR == 2 { gsub(/[ms]/, " "); printf "processor minutes: %d\n", $1 + $3 }' "$room/times"
count
