#!/usr/bin/env bash
# examples/watch.sh on files that are written while it follows them, and on some that are refused. Each run has to print just what is wanted here, and
# to end with the status of its last answer.
# usage: tests/watch.sh   (builds what isn't built, unless LINCHECK in the environment names the program)
set -u
cd "$(dirname "$0")/.."
[ -n "${LINCHECK:-}" ] || ./lincheck --help > /dev/null 2>&1
export LINCHECK=${LINCHECK:-$PWD/lincheck}
room=$(mktemp -d)
trap 'rm -rf "$room"' EXIT
file=$room/history.edn printed=$room/printed
passed=0 failed=0

begin() { # text, seconds, options ..: follows a file with that text
    local text=$1
    shift
    : > "$printed"
    printf '%s' "$text" > "$file"
    examples/watch.sh "$file" "$@" > "$printed" 2>&1 &
}

seen() { # line: waits until it was printed, for at most ten seconds
    local left=100
    until grep -qxF "$1" "$printed" || [ $((left -= 1)) = 0 ]; do sleep 0.1; done
}

ends() { # name, status, lines
    local status
    wait $!
    status=$?
    if [ "$status" = "$2" ] && [ "$(cat "$printed")" = "$3" ]; then
        passed=$((passed + 1))
    else
        failed=$((failed + 1))
        printf '%s: has to end with %s and to print:\n%s\n  ends with %s and prints:\n%s\n' "$1" "$2" "$3" "$status" "$(cat "$printed")"
    fi
}

write='{:process 0 :type :invoke :f :write :value 1}
{:process 0 :type :ok :f :write :value 1}
'
begin '' 20
seen 'events 0: yes'
printf '%s' "$write" >> "$file"
sleep 0.7
printf '{:process 1 :type :invoke :f :read}\n{:process 1 :type :ok :f :re' >> "$file"
sleep 0.7
printf 'ad :value nil}\n{:process 2 :type :invoke :f :read}\n' >> "$file"
ends 'a file that grows to a no, with half a map in between' 1 "events 0: yes
events 5: no prefix 4
$(printf 'pull\nexplain\n' | "$LINCHECK" edit "$file" | tail -n +3)"

began=$SECONDS
begin "$write{:process 1 :type :invoke :f" 2
seen 'events 2: yes'
printf ' :read}\n' >> "$file"
ends 'a file that stays a yes' 0 'events 2: yes'
# (both count whole seconds)
[ $((SECONDS - began)) -ge 1 ] && passed=$((passed + 1)) || { failed=$((failed + 1)); echo 'it ended before so long nothing had come'; }

begin "$write" 20
seen 'events 2: yes'
printf '{:process 3 :type :ok :f :read}\n' >> "$file"
seen 'events 3: ill-formed at 2 cause 4 NoInvocation'
printf '{:a 1}\n' >> "$file"
ends 'a history that gets ill-formed, and a map that is no event' 4 "events 2: yes
events 3: ill-formed at 2 cause 4 NoInvocation
refused input event 3 Missing at 120
lincheck: $file: refused input event 3 Missing at 120"

begin "${write//write/enqueue}" 0 --kind fifo
ends 'a queue' 0 'events 2: yes'
begin '' 0
rm "$file"
"$LINCHECK" check "$file" > "$room/absent" 2>&1
examples/watch.sh "$file" 0 > "$printed" 2>&1 &
ends 'no file' 6 "$(cat "$room/absent")"

echo "$passed passed, $failed failed"
[ "$failed" = 0 ]
