#!/usr/bin/env bash
# Tells whether built/OF speaks of what is here: of this source, of built/lincheck, of the logic of the kit at hand. Says on standard error what
# doesn't fit.
#
# usage: built/fits.sh [source] [program] [kit]     built/fits.sh --sum prints the sum of the source
#
# OF has three lines: `source SUM`, the SHA-256 of the list of SHA-256 sums of crates.txt and all files of crates/*/src, by rising names (what
# stands in specs/ and proofs/ changes no byte of the program); `kit LINE`, what `rt version` prints, of which only
# the sum behind the word `logic` has to be the same, since it decides what is proved; and `program SUM`, the SHA-256 of lincheck.
set -u
cd "$(dirname "$(readlink -f "$0")")/.." || exit 2
export LC_ALL=C

source_sum() { find crates.txt crates/*/src -type f | sort | xargs sha256sum | sha256sum | cut -d ' ' -f 1; }

logic() { sed -n 's/.*\<logic \([0-9a-f][0-9a-f]*\).*/logic \1/p'; }

found() {
    case $1 in
        source) source_sum ;;
        program) sha256sum < built/lincheck | cut -d ' ' -f 1 ;;
        kit) rt version | logic ;;
        *) echo "fits.sh: no such word: $1" >&2; exit 2 ;;
    esac
}

if [ "${1:-}" = --sum ]; then source_sum; exit; fi
[ $# -gt 0 ] || set -- source program kit
for it in "$@"; do
    said=$(sed -n "s/^$it //p" built/OF 2> /dev/null)
    [ "$it" = kit ] && said=$(logic <<< "$said")
    now=$(found "$it" 2> /dev/null)
    if [ -z "$said" ] || [ "$said" != "$now" ]; then
        echo "built/OF is of another $it (${said:-none} there, ${now:-none} here)" >&2
        exit 1
    fi
done
