#!/usr/bin/env bash
# Prints docs/WRONG-PROGRAMS.md: each wrong program that the prover must refuse, by the first line of its edit.
# wrong_programs.sh --check: compares that with the file.
set -eu -o pipefail
export LC_ALL=C.UTF-8
file=docs/WRONG-PROGRAMS.md

fail() {
    echo "wrong programs: FAILED: $1" >&2
    exit 1
}

# item EDIT: its list item, wrapped at 110 columns.
item() {
    local first name words word line=-
    IFS= read -r first <"$1" || true
    [[ $first =~ ^'# '.+\.$ ]] || fail "$1:1: no comment that ends in a full stop"
    name=$(basename "$1" .edit)
    read -ra words <<<"\`$name\`: ${first#\# }"
    for word in "${words[@]}"; do
        if ((${#line} + 1 + ${#word} > 110)); then
            echo "$line"
            line=' '
        fi
        line+=" $word"
    done
    echo "$line"
}

page() {
    local folder crate crates edit edits
    for folder in crates/*/must-fail; do
        crate=$(basename "$(dirname "$folder")")
        grep -q "^$crate\( [^:]*\)\{0,1\}:" crates.txt || fail "$folder belongs to no crate of crates.txt"
    done
    edits=(crates/*/must-fail/*.edit)
    cat <<END
# Wrong programs

${#edits[@]} edits of programs and definitions in \`crates/*/must-fail\`, each with one mistake. \`rt ci\` tries each, and
the prover must refuse it. \`make docs\` writes this page, and \`make test\` compares it with the edits.
END
    mapfile -t crates < <(sed -n 's/^\([a-z0-9_]*\)\( [^:]*\)\{0,1\}:.*/\1/p' crates.txt)
    for crate in "${crates[@]}"; do
        [ -d "crates/$crate/must-fail" ] || continue
        edits=("crates/$crate/must-fail"/*.edit)
        printf '\n## %s (%d)\n\n' "$crate" "${#edits[@]}"
        for edit in "${edits[@]}"; do item "$edit"; done
    done
}

text=$(page)
if [ "${1-}" != --check ]; then
    printf '%s\n' "$text"
elif diff "$file" <(printf '%s\n' "$text") >&2; then
    echo "wrong programs: $file has all $(grep -c '^- ' "$file")"
else
    fail "$file (<) is not what the edits say (>): make docs mends it"
fi
