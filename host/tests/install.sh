#!/usr/bin/env bash
# make install into a temporary directory, and the examples built and run over what it put there.
set -eu -o pipefail
dir=$(mktemp -d)
trap 'rm -rf "$dir"' EXIT
make=${MAKE:-make}
# What the make outside was told is none of this one's.
unset MAKEFLAGS MFLAGS DESTDIR

fail() {
    echo "install: FAILED: $1" >&2
    exit 1
}

# DESTDIR, blanks and all, is where files are put, and no part of what they say. PREFIX becomes absolute.
for prefix in /opt/kinphlor ../../../../../../../../../../../../opt/kinphlor; do
    "$make" --no-print-directory -s install-files DESTDIR="$dir/a stage" PREFIX="$prefix" >/dev/null
    stage="$dir/a stage/opt/kinphlor"
    for file in include/kinphlor.h lib/libkinphlor.a lib/pkgconfig/kinphlor.pc; do
        [ -f "$stage/$file" ] || fail "DESTDIR has no $file"
    done
    grep -qx 'prefix=/opt/kinphlor' "$stage/lib/pkgconfig/kinphlor.pc" || fail "kinphlor.pc has another prefix"
    rm -r "$dir/a stage"
done

# refuses PREFIX WORDS: make install takes no such PREFIX, says so in one line, leaves nothing, and asks the prover
# for nothing before: rt is one here that fails and says so.
refuses() {
    local target
    for target in install install-files; do
        if PATH=$dir/bin:$PATH "$make" --no-print-directory -s "$target" PREFIX="$1" >"$dir/said" 2>&1; then
            fail "make $target takes PREFIX=$1"
        fi
        [ "$(grep -v '^make' "$dir/said")" = "kinphlor: $2" ] || fail "make $target says: $(cat "$dir/said")"
        [ "$(ls "$dir")" = "$(printf '%s\n' bin file said tree)" ] || fail "make $target PREFIX=$1 leaves: $(ls "$dir")"
    done
}
mkdir "$dir/bin" "$dir/tree"
printf '#!/bin/sh\necho the prover is asked\nexit 1\n' >"$dir/bin/rt"
chmod +x "$dir/bin/rt"
touch "$dir/file" "$dir/tree/include"
refuses '' 'PREFIX is empty; for the root directory say PREFIX=/'
refuses "$dir/my lib" "PREFIX has a blank in it ($dir/my lib): pkg-config's flags would be split there"
for prefix in file file/lib tree; do
    at=${prefix/#file*/file} at=${at/#tree/tree\/include}
    refuses "$dir/$prefix" "cannot write to $dir/$at; another place is PREFIX=\$HOME/kinphlor"
done
for odd in \# \' \" \\ \& \; % é; do
    refuses "$dir/a${odd}b" "PREFIX has a character in it that pkg-config does not hand on ($dir/a${odd}b)"
done
PREFIX="$dir/my lib" "$make" --no-print-directory -n lib >/dev/null || fail 'make lib minds a PREFIX'

# The pages' own lines: make install, both ways to compile C, and rustc's, with a home of their own.
install=$(sed -n 's/^    make install \(PREFIX=[^ ]*\) .*/\1/p' README.md)
[ -n "$install" ] || fail 'README installs nothing'
(HOME=$dir && eval "\"$make\" --no-print-directory -s install-files $install") >/dev/null
cp host/c/example.c "$dir/program.c"
ways=0
while IFS= read -r line; do
    ways=$((ways + 1))
    rm -f "$dir/a.out"
    (cd "$dir" && HOME=$dir && eval "${line/#cc/${CC:-cc} -std=c99 -Wall -Wextra -Wpedantic -Werror}") || fail "README's line: $line"
    [ "$("$dir/a.out")" = success ] || fail "the example in C, by $line"
done < <(sed -n 's/^    \(cc program\.c .*\)/\1/p' README.md)
[ "$ways" = 2 ] || fail "README has $ways ways to compile"
line=$(sed -n 's/^    \(rustc .*\) program\.rs$/\1/p' docs/USAGE.md)
[ -n "$line" ] || fail 'USAGE has no line for rustc'
# rustc may be one that looks for itself in the home.
eval "${line//\$HOME/$dir} -D warnings -o \"$dir/example_rust\" host/rust/example.rs"
"$dir/example_rust" | grep -q '^sealed: \[' || fail "the example in Rust"
echo 'install: the examples in C and Rust run over what make install put down, by the lines of README and USAGE'
