#!/usr/bin/env bash
# Makes lincheck as a library for C and whatever calls C: proves crates/lincheck_c over the crates below it, as rt ci left them in crates/*/out, and
# puts liblincheck.a, liblincheck.so and lincheck.h into a folder. In the archive stand the object that is built from the proofs, and that of the kit
# that calls malloc, realloc and free; the shared object, for which there has to be a C compiler, is made of the same two, and shows the calls of
# lincheck.h alone. Where a crate below isn't there, or is older than its text, it says so, and its status is 3.
#
# usage: built/library.sh FOLDER [rattle]     (rattle: built by Rattle's own compiler, which tells how much stack a call takes)
set -u
[ $# = 1 ] || [ "$#:${2:-}" = 2:rattle ] || { sed -n '2,8s/^# \{0,1\}//p' "$0" >&2; exit 2; }
mkdir -p "$1" && folder=$(cd "$1" && pwd) || exit 1
cd "$(dirname "$(readlink -f "$0")")/../crates" || exit 2
crates=$PWD
kit=$(dirname "$(dirname "$(readlink -f "$(command -v rt)")")")
room=$(mktemp -d) || exit 1
trap 'rm -rf "$room"' EXIT

below() { # all crates that lincheck_c stands on, of those that crates.txt lists
    awk -F ':' '{ sub(/#.*/, ""); split($1, name, " "); if (NF > 1) libraries[name[1]] = $2 }
        END { left[n = 1] = "lincheck_c"
              while (n) { split(libraries[left[n--]], them, " "); for (i in them) if (them[i] in libraries && !seen[them[i]]++) { print them[i]; left[++n] = them[i] } } }' \
        ../crates.txt
}
for it in $(below); do
    made=$it/out/rlib/$it.rlib/format
    [ -f "$made" ] && [ -z "$(find "$it"/src "$it"/specs "$it"/proofs -newer "$made" -type f -print -quit 2> /dev/null)" ] ||
        { echo "skipped: no library for C, since $it is not built here from its present text, as rt ci does where it has to prove it" >&2; exit 3; }
done
words=(--crate-name lincheck_c src/lib.rt --extern "std=$kit/rlibs/std.rlib" -L "dependency=$kit/rlibs"
    --antt-project "$kit/rattle/logic/antt-project.json"
    --links lincheck_c= --crate-type staticlib)
for it in $(sed -n 's/^lincheck_c staticlib:\([^#]*\).*/\1/p' ../crates.txt); do words+=(--extern "$it=$crates/$it/out/rlib/$it.rlib"); done
for it in $(below); do words+=(-L "dependency=$crates/$it/out/rlib"); done

tell() { # a log, where a command failed
    grep -E '^(error|rattle|fn .*not proved|[^ ]*: error)' "$1" | tail -5 >&2
    tail -1 "$1" >&2
    exit 1
}
cd lincheck_c || exit 1
"$kit/bin/rattle" check "${words[@]}" --logic-built "$kit/logic_built" --jobs 2 -o "$room/proved" > "$room/log" 2>&1 || tell "$room/log"
grep '^logic=proved' "$room/log"
"$kit/bin/rattle" build "${words[@]}" --crate-checked "$room/proved" --toolchain "$kit/toolchain" --backend "${2:-llvm}" -o "$room/made.a" > "$room/log" 2>&1 ||
    tell "$room/log"
grep -o 'frame-bytes=.*' "$room/log"
cd "$room" && mkdir objects && cd objects && ar x "$kit/c/liblibc_c.a" && ar x ../made.a && ar rcsD ../liblincheck.a ./* || exit 1
cp "$room/liblincheck.a" "$crates/../adapters/c/lincheck.h" "$folder" || exit 1
command -v cc > /dev/null || { echo 'library.sh: there is no cc, so no liblincheck.so' >&2; exit 0; }
echo '{ global: lincheck_*; local: *; };' > "$room/shown"
cc -shared -s -o "$folder/liblincheck.so" -Wl,--version-script="$room/shown" -Wl,--no-undefined -Wl,--whole-archive "$room/liblincheck.a" -Wl,--no-whole-archive
