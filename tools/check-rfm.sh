#!/usr/bin/env bash
# Checks the command rfm: what it prints, where, and with which status. The answers that it must print are the paper's
# own, and for the desk the ones that follow from its rules by hand.
set -eu
. "$(dirname "${BASH_SOURCE[0]}")/machine.sh"
for program in worked build read; do make_program "$program"; done
room=$(mktemp -d)
trap 'rm -rf "$room"' EXIT
wrong=0
card=application=0$'\n'domain=00$'\n'format=0$'\n'script=
found=application=0$'\n'domain=00$'\n'format=2$'\n'script=
answer=refusal=0$'\n'executed=1$'\n'response=019000$'\n'used=8$'\n'scripts=1$'\n'

# Runs rfm: try WHAT INPUT STATUS OUTPUT ERROR WORD..
# ERROR is a pattern for what it says on standard error.
try() {
    local status=0
    printf '%b' "$2" | "$root/rfm" "${@:6}" > "$room/out" 2> "$room/err" || status=$?
    # shellcheck disable=SC2053
    if [ "$status" -ne "$3" ] || [ "$(cat "$room/out"; echo .)" != "$4." ] || [[ $(cat "$room/err") != $5 ]]; then
        echo "rfm: $1: status $status, and it printed:"
        cat "$room/out" "$room/err"
        wrong=$((wrong + 1))
    fi
}

bad=input=bad$'\n'
try 'the example of the paper' "${card}00A4000C027F10\n" 0 "$answer" ''
try 'a script found to be compact' "${found}00A4000C027F10\n" 0 "$answer" ''
try 'a script found to be expanded' "${found}AA09220700A4000C027F10\n" 0 "${answer/019000/AB0780010123029000}" ''
try 'no line feed at the end' "${card}00A4000C027F10" 0 "$answer" ''
try 'a carriage return' 'application=0\ndomain=00\r\n' 0 "$bad" 'rfm: line 2 *carriage return*'
try 'lower-case digits' "${card}00a4000C027F10\n" 0 "$bad" 'rfm: line 4 *upper-case*'
try 'an odd digit' "${card}000\n" 0 "$bad" 'rfm: line 4 *even*'
try '16,386 digits' "$card$(printf %016386d 0)\n" 0 "$bad" 'rfm: line 4 *16,384*'
try 'a zero byte' 'application=0\ndomain=0\00000\n' 0 "$bad" 'rfm: line 2 *'
try 'a missing line' 'application=0\ndomain=00\nformat=0\n' 0 "$bad" 'rfm: line 4 is missing*'
try 'nothing' '' 0 "$bad" 'rfm: line 1 is missing*'
try 'a line too many' "$card\n\n" 0 "$bad" 'rfm: line 5 *'

# The desk: README's three commands, and what is said where nothing is built or read.
script=00A4080C047F106F4600D6000002014100B0000000
data=0141FFFFFFFFFFFFFFFFFFFFFFFFFFFFFF
try 'a list is built' 'format=0\nselect=7F106F46\nupdate=0,0141\nread=0,0\n' 0 \
    refusal=0$'\n'operations=3$'\n'script=$script$'\n' '' build
try 'the script is run' "$card$script\n" 0 \
    refusal=0$'\n'executed=3$'\n'response=039000$data$'\n'used=18$'\n'scripts=1$'\n' ''
try 'the answer is read' "format=0\nanswer=039000$data\n" 0 count=3$'\n'status=9000$'\n'data=$data$'\n' '' read
try 'an operation that is not carried' 'format=0\nread=0,0\nread=0,0\n' 0 \
    refusal=2$'\n'operations=1$'\n'script=$'\n' 'rfm: operation 1 *last*' build
try 'no operation' 'format=0\n' 0 refusal=1$'\n'operations=0$'\n'script=$'\n' 'rfm: *1 to 40*' build
try 'an odd path' 'format=0\nselect=7F1\n' 0 line=2$'\n' 'rfm: line 2 *select=PATH*' build
try 'no format' 'select=7F10\n' 0 line=1$'\n' 'rfm: line 1 *format=*' build
try 'a damaged answer' 'format=1\nanswer=AB0780010123039000\n' 0 place=6$'\n' 'rfm: *place 6,*' read
try 'a Bad format TLV' 'format=1\nanswer=AB06800101900101\n' 0 count=1$'\n'code=01$'\n' '' read
try 'a missing answer' 'format=1\n' 0 line=2$'\n' 'rfm: line 2 *answer=*' read
try 'a third line' 'format=0\nanswer=019000\n\n' 0 line=3$'\n' 'rfm: line 3 *' read
try 'another word' '' 2 '' 'usage: *' other
if printf '%b' "${card}00A4000C027F10\n" | "$root/rfm" > /dev/full 2> /dev/null; then
    echo 'rfm: status 0, and nothing could be written'
    wrong=$((wrong + 1))
fi
echo "rfm: $wrong wrong"
[ $wrong -eq 0 ]
