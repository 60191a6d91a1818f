#!/usr/bin/env bash
# The demo in a pipe and on a terminal. It checks itself; here, that it reached its last line and fits 100
# columns, and that GREEN and AMBER are coloured on a terminal that has colours, and nowhere else.
# demo.sh DEMO OUT: the program, and the file for what it prints in a pipe.
set -eu -o pipefail
demo=$1 out=$2
escape=$'\033'

fail() {
    echo "demo: FAILED: $1" >&2
    exit 1
}

# on_terminal VARIABLE=VALUE: what it prints on a terminal, which script from Debian's bsdutils is.
on_terminal() {
    env -u NO_COLOR "$@" script -qec "$demo" /dev/null </dev/null | tr -d '\r'
}

TERM=xterm "$demo" | cat >"$out"
if grep -nE '.{101}' "$out"; then fail 'a line of over 100 columns'; fi
if grep -q "$escape" "$out"; then fail 'an escape character in a pipe'; fi

on_terminal TERM=xterm >"$out.colour"
[ "$(grep -c "$escape\[32mGREEN$escape\[0m" "$out.colour")" = 5 ] || fail 'on a terminal, not five in green'
[ "$(grep -c "$escape\[33mAMBER$escape\[0m" "$out.colour")" = 3 ] || fail 'on a terminal, not three in amber'
sed "s/$escape\[[0-9]*m//g" "$out.colour" | cmp - "$out" || fail 'on a terminal, more than colours is another'
on_terminal TERM=xterm NO_COLOR=1 | cmp - "$out" || fail 'colours where NO_COLOR is set'
on_terminal TERM=dumb | cmp - "$out" || fail 'colours on a dumb terminal'
tail -n 1 "$out" | grep '^demo: four records opened' || fail 'another last line'
