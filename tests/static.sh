#!/usr/bin/env bash
# Tries the static executable (built/static.sh) under an empty root: a folder with that file alone, and then with one history beside it. What it
# prints and its status have to be those of the program itself. Where the program's object isn't there, or no cc or chroot, it says so and tries none.
#
# usage: tests/static.sh     (LINCHECK in the environment names the program; else it is crates/lincheck/out/lincheck)
set -u
cd "$(dirname "$0")/.." || exit 2
program=$(readlink -f "${LINCHECK:-crates/lincheck/out/lincheck}")
room=$(mktemp -d) || exit 1
trap 'rm -rf "$room"' EXIT

skip() { echo "skipped: $*"; echo '0 passed, 0 failed'; exit 0; }

[ -x "$program" ] || skip 'there is no program'
grep -qx 'built/static.sh lincheck-static' docs/INTEGRATION.md || { echo 'docs/INTEGRATION.md tells another command'; echo '0 passed, 1 failed'; exit 1; }
(cd "$room" && "$OLDPWD/built/static.sh" made "$program") 2> "$room/why"
case $? in
    0) ;;
    1) skip "$(tail -1 "$room/why")" ;;
    *) cat "$room/why"; echo '0 passed, 1 failed'; exit 1 ;;
esac
mkdir "$room/root"
mv "$room/made" "$room/root/lincheck"
if chroot "$room/root" /lincheck --version > /dev/null 2>&1; then
    inside=(chroot "$room/root" /lincheck)
elif unshare -r chroot "$room/root" /lincheck --version > /dev/null 2>&1; then
    inside=(unshare -r chroot "$room/root" /lincheck)
else
    skip 'no other root can be had here'
fi

passed=0
failed=0
same() { # words, with $input as standard input
    local wanted told
    (cd "$room/root" && "$program" "$@") < "$input" > "$room/wanted" 2> "$room/wanted.err"
    wanted=$?
    "${inside[@]}" "$@" < "$input" > "$room/told" 2> "$room/told.err"
    told=$?
    if [ $wanted = $told ] && cmp "$room/wanted" "$room/told" && cmp "$room/wanted.err" "$room/told.err"; then
        passed=$((passed + 1))
    else
        echo "lincheck $* < $input: status $told, and not $wanted"
        failed=$((failed + 1))
    fi
}

for input in examples/*.edn; do
    same check -
    same check - --keyed --format json
done
input=/dev/null
same --version
same check
same check none.edn
cp examples/register-stale-read.edn "$room/root/history.edn"
same check history.edn
same explain history.edn
same draw history.edn
echo "$passed passed, $failed failed"
[ $failed = 0 ]
