#!/usr/bin/env bash
# Runs every command of the console blocks of README.md, docs/*.md and tests/pages/*.md that calls the program, on the files of examples/,
# and compares what is printed. A line `$ COMMAND` of such a block is run; the lines behind it are what it has to print. `$ echo $?` is the
# status of the command before it in its block. A python block is run too, and has to end well. Of each page with such blocks the commands are
# counted; the last line counts all.
# usage: tests/readme.sh [PAGE ..]   (builds what isn't built, unless LINCHECK in the environment names the program that stands for ./lincheck)
set -u
cd "$(dirname "$0")/.."
[ -n "${LINCHECK:-}" ] || ./lincheck --help > /dev/null 2>&1
[ $# -gt 0 ] || set -- README.md docs/*.md tests/pages/*.md
passed=0 failed=0 last=0 page='' command='' wanted=''

finish() { # runs the command that was read, and compares
    [ -n "$command" ] || return 0
    local printed
    printed=$( (exit "$last"); eval "${command//.\/lincheck/${LINCHECK:-./lincheck}}" 2>&1 < /dev/null)
    last=$?
    if [ "$printed" = "${wanted%$'\n'}" ]; then
        passed=$((passed + 1))
    else
        failed=$((failed + 1))
        printf '%s: %s\n  has to print:\n%s\n  prints:\n%s\n' "$page" "$command" "${wanted%$'\n'}" "$printed"
    fi
    command='' wanted=''
}

run_script() { # runs a python block
    local said
    if said=$(python3 -c "${wanted//.\/lincheck/${LINCHECK:-./lincheck}}" 2>&1 < /dev/null); then
        passed=$((passed + 1))
    else
        failed=$((failed + 1))
        printf '%s: a python block fails:\n%s\n' "$page" "$said"
    fi
    wanted=''
}

run_page() { # page
    local inside=no line before=$((passed + failed))
    page=$1
    while IFS= read -r line; do
        case $inside:$line in
            no:'```console') inside=yes last=0 ;;
            no:'```python') inside=python ;;
            python:'```') run_script; inside=no ;;
            python:*) wanted+=$line$'\n' ;;
            yes:'```') finish; inside=no ;;
            yes:'$ '*) finish; command=${line#'$ '} ;;
            yes:*) wanted+=$line$'\n' ;;
        esac
    done < "$page"
    [ $((passed + failed)) = "$before" ] || printf '%s: %d commands\n' "$page" $((passed + failed - before))
}

for it in "$@"; do run_page "$it"; done
printf '%d passed, %d failed\n' "$passed" "$failed"
[ "$failed" = 0 ] && [ "$passed" -gt 0 ]
