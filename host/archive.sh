#!/usr/bin/env bash
# archive.sh NAME: target/staticlib/libNAME.a, proved and compiled by rt, unless it is up to date.
# It is the static library NAME_c where NAME itself is a library for other crates, and else NAME. It is compiled for
# any x86-64 processor: by itself rt takes a newer one.
# archive.sh NAME anew: the same, whatever is there.
# The prover's notes go to build/NAME.log; the terminal has a line for each crate as it is proved.
set -eu -o pipefail

case $#:${2-anew} in
    1:anew | 2:anew) ;;
    *)
        echo 'usage: host/archive.sh NAME [anew]' >&2
        exit 2
        ;;
esac
name=$1 how=${2-}
crate=$name
if [ -d "crates/${name}_c" ]; then crate=${name}_c; fi
made=crates/$crate/out/lib$crate.a
archive=target/staticlib/lib$name.a
stamp=$archive.sum
log=build/$name.log
version=$(rt version)

# The sum of what the archive is made of: rt, crates.txt, and names and contents of all files that rt proves.
# What rt keeps in the crates' out/ is no source.
sources() {
    {
        echo "$version"
        find -L crates.txt crates -regex 'crates/[^/]*/out' -prune -o -type f \( -path crates.txt -o -path 'crates/*/src/*' \
            -o -path 'crates/*/specs/*' -o -path 'crates/*/proofs/*' \) -print0 | LC_ALL=C sort -z | xargs -0 sha256sum
    } | sha256sum
}

# made_of SOURCES: what the stamp must say, with the archive's own sum, so that no other archive passes.
made_of() {
    echo "$1"
    sha256sum <"$archive"
}

# From what rt prints, a line for each crate that it proves: it counts the crate's modules, and then says that the
# crate is proved. The last is the static library.
progress() {
    local line crate='' since=$SECONDS
    while IFS= read -r line; do
        if [[ $line =~ ^'crate '([a-z0-9_]+)': ' ]]; then
            crate=${BASH_REMATCH[1]}
        elif [[ $line == 'logic=proved '* ]]; then
            printf '  %-13s %4s s\n' "$crate" $((SECONDS - since))
            since=$SECONDS
        fi
    done
}

# One run at a time: another's archive under this one's stamp would be up to date for ever.
mkdir -p build target
exec 9>target/archive.lock
flock -n 9 || {
    echo 'another run is at work on an archive; waiting for it'
    flock 9
}
before=$(sources)
if [ "$how" != anew ] && [ -f "$archive" ] && [ -f "$stamp" ] && [ "$(cat "$stamp")" = "$(made_of "$before")" ]; then
    exit 0
fi
rm -f "$archive" "$stamp" "$made"
echo "proving $name and what it stands on, a few minutes from nothing; notes in $log"
(cd "crates/$crate" && exec rt lib --cpu=x86-64) 2>&1 9>&- | tee "$log" | progress || {
    echo "kinphlor: $name is not proved. The end of $log, without its counts of modules:" >&2
    grep -v '^[a-z]* [a-z0-9_]*: modules loaded=\|^logic /' "$log" | tail -n 12 | cut -c 1-300 >&2
    exit 1
}
if [ ! -f "$made" ]; then
    echo "kinphlor: rt made no $made; its notes are in $log" >&2
    exit 1
fi
mkdir -p "${archive%/*}"
cp "$made" "$archive"
# A file that was changed meanwhile may or may not be in the archive: then there is no stamp.
if [ "$(sources)" = "$before" ]; then made_of "$before" >"$stamp"; fi
