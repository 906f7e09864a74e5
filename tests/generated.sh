#!/usr/bin/env bash
# Generated histories, each with an order that is legal by the way it was made: whatever the spelling (a map a line, one vector, tags
# and comments between, one vector behind a tag), `verify` has to say yes of that order and no of the empty one, and `check` has to say yes.
# And recordings of unordered queues with such an order, beside others with a fault, of which both have to say no.
# usage: tests/generated.sh   (the program has to be built; it is ./lincheck, or what LINCHECK names)
set -u
cd "$(dirname "$0")/.."
folder=$(mktemp -d)
trap 'rm -rf "$folder"' EXIT
program=${LINCHECK:-./lincheck}
passed=0 failed=0

prints() { # wanted, command
    local wanted=$1 printed
    shift
    printed=$("$@" 2>&1)
    if [ "$printed" = "$wanted" ]; then
        passed=$((passed + 1))
    else
        failed=$((failed + 1))
        printf 'generated: %s\n  has to print %s, prints %s\n' "${*:0:4}" "$wanted" "$printed"
    fi
}

bench/generate.sh 2000 100 lines "$folder/order" > "$folder/lines.edn"
bench/generate.sh 2000 100 vector > "$folder/vector.edn"
sed 's/^{/#jepsen.history.Op {/; s/, :time/ ,:time/; s/$/ ; #_ a comment/' "$folder/lines.edn" > "$folder/tagged.edn"
# One vector behind a tag, whose maps aren't read in place: a backslash stands in each.
sed '1s/^/#h /; s/, :index/, :note "a \\\\ b", :index/' "$folder/vector.edn" > "$folder/unusual.edn"
for spelling in lines vector tagged unusual; do
    prints yes "$program" verify "$folder/$spelling.edn" "$(cat "$folder/order")"
    prints no "$program" verify "$folder/$spelling.edn" empty
    prints "$(printf 'events 2000 objects 1\nobject 0 register: yes\nwhole: yes')" "$program" check "$folder/$spelling.edn"
done

bag() { # wanted, then words of bench/bags.py: `verify` of the order, and where two clients leave few operations open the verdict of `check`
    bench/bags.py "${@:2}" "$folder/order" > "$folder/bag.edn"
    prints "$1" "$program" verify --kind unordered-queue "$folder/bag.edn" "$(cat "$folder/order")"
    [ "$5" = 10 ] || prints "whole: $1" verdict "$folder/bag.edn"
}

verdict() { "$program" check --kind unordered-queue "$1" | awk 'END { print $1, $2 }'; }

for numbers in unique few; do
    bag yes 1000 "$numbers" sound 2
    bag no 1000 "$numbers" twice 2
    bag no 1000 "$numbers" lost 2
done
for numbers in unique few crashed; do
    bag yes 2000 "$numbers" sound 10
    bag no 2000 "$numbers" twice 10
    bag no 2000 "$numbers" lost 10
done
printf '%d passed, %d failed\n' "$passed" "$failed"
[ "$failed" = 0 ]
