#!/usr/bin/env bash
# Follows a history while it is written: a line whenever the answer changes, with the number of events, and at a no the reason. It ends there, where
# the file is refused, and where no event has come for SECONDS_IDLE (else 60), with the status of the last answer, as `lincheck check` does.
# usage: examples/watch.sh FILE [SECONDS_IDLE [OPTION ..]]    (OPTION: one of `lincheck edit`, as --kind fifo; LINCHECK in the environment: its command)
# (it begins with a line, since Bash forgets the pipes of a coprocess that has ended)
coproc { read -r; exec "${LINCHECK:-${0%/*}/../lincheck}" edit "${@:3}" -- "$1"; }
exec 3<&"${COPROC[0]}"- 4>&"${COPROC[1]}"-
echo >&4
trap '' PIPE
say() { { echo "$1" >&4; } 2> /dev/null && IFS= read -r reply <&3; } # a command; reply is the first line of what it replies
events='' answer=''
while say pull; do
    case $reply in 'ok '*) ;; 'refused '*) echo "$reply"; exit 4 ;; *) echo "$reply"; break ;; esac
    [ "$reply" = "$events" ] || SECONDS=0 events=$reply
    say ask && [ "$reply" != "$answer" ] && echo "events ${events#ok }: $reply"
    answer=$reply
    case $answer in 'no '*) say explain; break ;; esac
    [ "$SECONDS" -lt "${2:-60}" ] || break
    sleep 0.5
done
exec 4>&-
while IFS= read -r reply <&3; do echo "$reply"; done # the lines of the reason, or of what is wrong with the words
wait $!
