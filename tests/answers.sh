#!/usr/bin/env bash
# Talks to the built program through two pipes, as a coprocess does: the answer to a line has to come before the next
# line is given.
set -u
cd "$(dirname "$0")/.." || exit 1
failed=0

# Starts the program, which ends within a minute.
begin() {
    coproc LINK { timeout 60 bin/stridelink run; }
    exec {to}>&"${LINK[1]}" {from}<&"${LINK[0]}"
    eval "exec ${LINK[1]}>&- ${LINK[0]}<&-"
}

# Wants this text as the next line, within ten seconds.
hears() {
    local text=nothing
    read -r -t 10 text <&"$from"
    [[ $text == "$1" ]] || {
        echo "not '$1' but '$text'" >&2
        failed=1
    }
}

# Gives a line, and wants its answer.
ask() {
    echo "$1" >&"$to"
    hears "$2"
}

# Asks for a packet of two bytes, whose frame has that many.
ask_for_packet() {
    ask 'open a 4 1' 'flow 1'
    ask 'mktkt 10 base' 'ticket 1'
    ask 'fund 1 flow a' 'ok'
    ask 'send a 6869' 'packet 1 1'
    ask 'turn 65535' "wrote 1 1 $1 whole"
    ask 'walk' 'no 3 Syntax'
}

# Gives no more lines, and wants this text as the last one.
finish() {
    exec {to}>&-
    hears "$1"
    exec {from}<&-
    wait
}

begin
ask_for_packet 14
finish 'out 4c01000000010000000100026869'

# A first line of an audit has no answer.
begin
echo 'audit 2' >&"$to"
ask_for_packet 19
finish 'out 4c020100000001000000000000000100026869'
exit "$failed"
