#!/usr/bin/env bash
# The blocks of code in README and USAGE are the text of files that tests compile, or what the demo prints.
# readme.sh DEMO: the file with the demo's output.
set -eu -o pipefail
demo=$1

fail() {
    echo "readme: FAILED: $1" >&2
    exit 1
}

# block PAGE LANGUAGE: the lines of the page's one block in the language.
block() {
    awk -v fence='```' -v first="\`\`\`$2" '$0 == fence { on = 0 } on; $0 == first { on = 1 }' "$1"
}

# has PAGE LANGUAGE...: of c, rust, rattle and text, the page has one block in each of these, and no other.
has() {
    local page=$1 found
    shift
    [ -f "$page" ] || fail "no $page"
    found=$(grep -oxE '```(c|rust|rattle|text)' "$page" | tr -d '`' | sort) || true
    [ "$found" = "$(printf '%s\n' "$@" | sort)" ] || fail "$page has blocks in: ${found//$'\n'/ }; expected: $*"
}

# is PAGE LANGUAGE FILE: the block is the file.
is() {
    diff <(block "$1" "$2") "$3" || fail "the example in $2 of $1 is not $3"
}

# is_in PAGE LANGUAGE FILE: the block is some whole lines of the file.
is_in() {
    local lines
    lines=$(block "$1" "$2")
    [ -n "$lines" ] || fail "the block in $2 of $1 is empty"
    [[ $'\n'$(cat "$3")$'\n' == *$'\n'"$lines"$'\n'* ]] || fail "the block in $2 of $1 is no part of $3"
}

has README.md c text
is README.md c host/c/example.c
is_in README.md text "$demo"
has docs/USAGE.md rust rattle text
is docs/USAGE.md rust host/rust/example.rs
is_in docs/USAGE.md rattle crates/wall_unit/src/main.rt
is_in docs/USAGE.md text "$demo"
echo 'readme: the blocks of README and USAGE are the files, and what the demo prints'
