#!/usr/bin/env bash
# host/archive.sh in a small tree with an rt that proves nothing and counts its runs: it runs where a source
# has changed, and only there; its notes are in the log, its crates on the terminal, and its refusal is shown.
set -eu -o pipefail
script=$PWD/host/archive.sh
dir=$(mktemp -d)
trap 'rm -rf "$dir"' EXIT

fail() {
    echo "archive: FAILED: $1" >&2
    exit 1
}

mkdir -p "$dir/bin" "$dir/a tree/crates/one/src" "$dir/a tree/crates/one/specs" "$dir/a tree/crates/two/proofs/deep" \
    "$dir/a tree/crates/three/src"
cat >"$dir/bin/rt" <<'END'
#!/bin/sh
if [ "$1" = version ]; then
    cat version
    exit
fi
# An archive is made in its crate's folder.
crate=$(basename "$PWD")
cd ../..
echo "$* $crate" >>runs
echo 'a note of the prover'
echo 'rt: chose --jobs 2 for one' >&2
echo 'statements std: modules loaded=16 checked=0'
echo 'crate one: modules loaded=0 checked=16'
echo 'logic=proved functions=1'
if [ -e daemon ]; then sleep 20 >/dev/null 2>&1 & fi
echo "crate $crate: modules loaded=0 checked=16"
if [ -e refuse ]; then
    echo 'logic=not-proved'
    exit 1
fi
if [ -e meanwhile ]; then date +%N >>crates/one/src/lib.rt; fi
echo 'logic=proved functions=2 target=x86_64-unknown-linux-gnu'
if [ "$crate" = three ]; then exit; fi
mkdir -p "crates/$crate/out"
echo archive >"crates/$crate/out/lib$crate.a"
END
chmod +x "$dir/bin/rt"
PATH=$dir/bin:$PATH
cd "$dir/a tree"
echo 'kit 1' >version
for file in crates.txt crates/one/src/lib.rt crates/one/specs/One.antt crates/two/proofs/deep/Two.antt; do
    echo "$file" >"$file"
done

# runs WHAT N [anew]: archive.sh succeeds, and runs rt so often.
runs() {
    : >runs
    "$script" two ${3+"$3"} >said 2>&1 || fail "$1: $(cat said)"
    [ "$(wc -l <runs)" = "$2" ] || fail "$1: rt ran $(wc -l <runs) times, expected $2"
    if grep -vx 'lib --cpu=x86-64 two' runs; then fail "$1: rt was asked for something else"; fi
}

runs 'no archive' 1
sed -E 's/^(  (one|two)              )[0-9] s/\1. s/' said | diff - <(
    echo 'proving two and what it stands on, a few minutes from nothing; notes in build/two.log'
    echo '  one              . s'
    echo '  two              . s'
) || fail 'another progress'
grep -qx 'a note of the prover' build/two.log || fail 'the notes are not in the log'
runs 'nothing changed' 0
[ ! -s said ] || fail "nothing changed, and it says: $(cat said)"
touch -d 2001-01-01 crates.txt crates/one/src/lib.rt
echo x >crates/one/README
mkdir -p crates/one/out/room/src
echo x >crates/one/out/room/src/lib.rt
runs 'nothing changed but times, a file that rt does not prove, and what rt keeps' 0

for file in crates.txt version crates/one/src/lib.rt crates/one/specs/One.antt crates/two/proofs/deep/Two.antt \
    crates/two/proofs/Added.antt target/staticlib/libtwo.a; do
    echo changed >>"$file"
    runs "$file is changed" 1
    runs "$file is as it was" 0
done
tr c z <crates/one/src/lib.rt >other
touch -r crates/one/src/lib.rt other
mv other crates/one/src/lib.rt
runs 'a file is another, as long and as old' 1
mv crates/two/proofs/Added.antt crates/two/proofs/Moved.antt
runs 'a file has another name' 1
rm crates/two/proofs/Moved.antt
runs 'a file is gone' 1
rm target/staticlib/libtwo.a
runs 'the archive is gone' 1
runs 'nothing changed, and the archive is wanted anew' 1 anew
cp crates/one/src/lib.rt before
touch meanwhile
runs 'the archive is wanted anew, and a file changes meanwhile' 1 anew
rm meanwhile
mv before crates/one/src/lib.rt
runs 'a file changed meanwhile, and is as it was' 1
echo linked >elsewhere
ln -s ../../../elsewhere crates/one/specs/Linked.antt
runs 'a link is added' 1
echo changed >>elsewhere
runs 'what a link leads to is changed' 1

# While another run holds the lock, this one waits.
exec 8>target/archive.lock
flock 8
: >runs
"$script" two anew >said 2>&1 8>&- &
sleep 0.6
[ ! -s runs ] || fail 'two runs at once'
grep -q 'waiting for it' said || fail "a run that waits does not say so: $(cat said)"
exec 8>&-
wait $! || fail "a run that had to wait: $(cat said)"
[ "$(wc -l <runs)" = 1 ] || fail 'a run that had to wait does nothing'

# What rt leaves running does not hold the lock, and an rt that makes nothing is told so.
touch daemon
runs 'rt leaves something running' 1 anew
rm daemon
flock -n target/archive.lock true || fail 'what rt leaves running holds the lock'
for wrong in 'two anwe' '' 'two anew anew'; do
    # shellcheck disable=SC2086
    if "$script" $wrong >said 2>&1; then fail "archive.sh $wrong is taken"; fi
    [ "$(cat said)" = 'usage: host/archive.sh NAME [anew]' ] || fail "archive.sh $wrong says: $(cat said)"
done
if "$script" three >said 2>&1; then fail 'an archive that rt does not make is taken'; fi
grep -qx 'kinphlor: rt made no crates/three/out/libthree.a; its notes are in build/three.log' said || fail "$(cat said)"

cp crates/one/src/lib.rt before
echo wrong >>crates/one/src/lib.rt
touch refuse
for how in '' again; do
    if "$script" two >said 2>&1; then fail "rt refuses $how, and archive.sh does not"; fi
    grep -q 'The end of build/two.log' said || fail "a refusal that does not name the log: $(cat said)"
    if grep -q 'modules loaded' said; then fail "a refusal with counts of modules: $(cat said)"; fi
    grep -qx 'logic=not-proved' said || fail "a refusal that does not show the log: $(cat said)"
    [ ! -e target/staticlib/libtwo.a ] || fail "rt refuses $how, and the archive of before is there"
done
rm refuse
mv before crates/one/src/lib.rt
runs 'rt refused before' 1

# Where the crate is a library, the static library over it makes the archive, under the crate's own name.
mkdir -p crates/two_c/src
echo two_c >crates/two_c/src/lib.rt
: >runs
"$script" two >said 2>&1 || fail "a static library over two: $(cat said)"
[ "$(cat runs)" = 'lib --cpu=x86-64 two_c' ] || fail "a static library over two: rt is asked for $(cat runs)"
cmp -s crates/two_c/out/libtwo_c.a target/staticlib/libtwo.a || fail 'the archive is not the one of two_c'
echo 'archive: rt runs where a source has changed, and only there'
