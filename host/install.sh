#!/usr/bin/env bash
# install.sh VERSION ARCHIVE: kinphlor.h, the archive and kinphlor.pc below PREFIX; DESTDIR is put before it.
# install.sh check: only whether PREFIX is one that can be used.
set -eu -o pipefail

refuse() {
    echo "kinphlor: $1" >&2
    exit 1
}

[ -n "${PREFIX-}" ] || refuse 'PREFIX is empty; for the root directory say PREFIX=/'
# kinphlor.pc holds it, so it is made absolute.
prefix=$(realpath -ms -- "$PREFIX")
LC_ALL=C
case $prefix in
    *[[:space:]]*) refuse "PREFIX has a blank in it ($prefix): pkg-config's flags would be split there" ;;
    *[!A-Za-z0-9/._+,@=~^-]*) refuse "PREFIX has a character in it that pkg-config does not hand on ($prefix)" ;;
esac
prefix=${prefix%/}
to=${DESTDIR-}$prefix

# What is there already, of the two folders and those above them, must be a folder that can be written.
for there in "$to/include" "$to/lib/pkgconfig"; do
    while [ ! -e "$there" ] && [ ! -L "$there" ]; do there=$(dirname -- "$there"); done
    [ -d "$there" ] && [ -w "$there" ] || refuse "cannot write to $there; another place is PREFIX=\$HOME/kinphlor"
done
[ "$1" != check ] || exit 0

install -d "$to/include" "$to/lib/pkgconfig"
install -m 644 include/kinphlor.h "$to/include/kinphlor.h"
install -m 644 "$2" "$to/lib/libkinphlor.a"
pc=$(<include/kinphlor.pc.in)
pc=${pc//@PREFIX@/"$prefix"}
pc=${pc//@VERSION@/"$1"}
printf '%s\n' "$pc" | install -m 644 /dev/stdin "$to/lib/pkgconfig/kinphlor.pc"
echo "$to has include/kinphlor.h, lib/libkinphlor.a and lib/pkgconfig/kinphlor.pc"
