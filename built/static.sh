#!/usr/bin/env bash
# Makes lincheck for machines whose C library is another or too old: one file that needs none, linked by cc from the object of which the program
# was linked. That object stands in crates/lincheck/out/ where the program was built from its proofs (rt ci, ./build.py, or rt run in that folder).
# What is linked with the kit's own linker from it has to be the program, byte for byte: so the file runs the code that was proved.
#
# usage: built/static.sh FILE [PROGRAM]     (PROGRAM: crates/lincheck/out/lincheck, if no other is named)
# Ends with 1 where cc or the object is missing, or the object is not the program's, and with 3 where it can't be linked.
set -u
cd "$(dirname "$(readlink -f "$0")")/.." || exit 2
[ $# = 1 ] || [ $# = 2 ] || { sed -n '2,7s/^# \{0,1\}//p' "$0" >&2; exit 2; }
case $1 in /*) file=$1 ;; *) file=$OLDPWD/$1 ;; esac
case ${2:-/} in /) program=$PWD/crates/lincheck/out/lincheck ;; /*) program=$2 ;; *) program=$OLDPWD/$2 ;; esac
object=$PWD/crates/lincheck/out/lincheck.o

[ -f "$object" ] || { echo "static.sh: there is no $object: it is made where the program is built from its proofs" >&2; exit 1; }
command -v cc > /dev/null || { echo 'static.sh: this needs a C compiler, cc' >&2; exit 1; }
kit=$(dirname "$(dirname "$(readlink -f "$(command -v rt)")")")
room=$(mktemp -d) || exit 1
trap 'rm -rf "$room"' EXIT
libraries=("$kit/c/libos_c.a" "$kit/c/liblibc_c.a")
"$kit/bin/rattle-link" --target x86_64-unknown-linux-gnu --toolchain "$kit/toolchain" -o "$room/dynamic" "$object" "${libraries[@]}" || exit 3
cmp -s "$room/dynamic" "$program" || { echo "static.sh: $object is not that of $program" >&2; exit 1; }
cc -static -s -o "$room/static" "$object" "${libraries[@]}" || exit 3
mv "$room/static" "$file"
