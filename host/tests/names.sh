#!/usr/bin/env bash
# An answer has the same name and number in Rattle and in C: HeaderCount is KINPHLOR_HEADER_COUNT.
set -eu -o pipefail

rattle() {
    {
        grep -q '^pub type Answer = Result<usize, Refusal>;$' crates/answers/src/lib.rt && echo 'OK 0'
        sed -nE '/^pub enum Refusal/,/^}/s/^ *([A-Za-z]+) = ([0-9]+),$/\1 \2/p' crates/answers/src/lib.rt
    } | sed -E 's/([a-z])([A-Z])/\1_\2/g' | tr '[:lower:]' '[:upper:]'
}

c() {
    sed -nE 's/^ *KINPHLOR_([A-Z_]+) = ([0-9]+),?( .*)?$/\1 \2/p' include/kinphlor.h
}

if [ -z "$(rattle)" ] || ! diff <(rattle) <(c); then
    echo 'names: FAILED: answers in Rattle (<) and in include/kinphlor.h (>) differ' >&2
    exit 1
fi

# The table of docs/RULES.md has them too.
rules() {
    sed -nE 's/^\| ([0-9]+) \| `([A-Za-z]+)` \|.*/\2 \1/p' docs/RULES.md |
        sed -E 's/([a-z])([A-Z])/\1_\2/g' | tr '[:lower:]' '[:upper:]'
}
if ! diff <(rules) <(c); then
    echo 'names: FAILED: answers in docs/RULES.md (<) and in include/kinphlor.h (>) differ' >&2
    exit 1
fi

# The order of refusals, as the statements have it: 12 is alone in its call, and C never gets 9 and 2.
order=$(sed -n 's/^order = \(.*\) ∷ \[\]$/\1/p' crates/demands/specs/Table.antt | sed 's/ ∷ /, /g')
alone=${order%, 12}
for_c=$(printf '%s' "$alone" | sed 's/^9, //; s/ 2,//')
for pair in "docs/RULES.md:$alone." "include/kinphlor.h:$for_c."; do
    if ! tr -s '\n *' ' ' <"${pair%%:*}" | grep -qF ": ${pair#*:}"; then
        echo "names: FAILED: ${pair%%:*} has another order than ${pair#*:}" >&2
        exit 1
    fi
done
echo "names: $(c | wc -l) answers have the same names and numbers, and one order, in Rattle, C and the rules"
