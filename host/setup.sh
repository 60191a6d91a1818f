#!/bin/sh
# setup.sh lib, demo, test or bench: installs the Debian packages that this command of make needs and the machine lacks.
# Where it cannot, it says in one line what to install. Where nothing is missing, it does nothing.
# setup.sh where FILE: the path of a shared library.
set -eu

where() {
    for dir in /usr/lib/x86_64-linux-gnu /usr/lib64 /usr/lib; do
        if [ -e "$dir/$1" ]; then
            echo "$dir/$1"
            return
        fi
    done
    return 1
}

# has NEED. A compiler counts where it finds the C library's headers, and rustc where it knows edition 2024.
has() {
    case $1 in
        cc) echo '#include <stdio.h>' | cc -E - ;;
        rustc*) rustc --edition 2024 --print sysroot ;;
        lib*) where "$1" ;;
        *) command -v "$1" ;;
    esac >/dev/null 2>&1
}

# packages_of NEED. Debian 12 has a rustc for edition 2024 under another name.
packages_of() {
    case $1 in
        cc) echo gcc libc6-dev ;;
        rustc*) if grep -qs '^VERSION_ID="12"' /etc/os-release; then echo rustc-web; else echo rustc; fi ;;
        libcrypto.so.3) echo libssl3 ;;
        libgcrypt.so.20) echo libgcrypt20 ;;
        script) echo bsdutils ;;
        *) echo "$1" ;;
    esac
}

# Sets missing and packages.
look() {
    missing='' packages=''
    for need in $needs; do
        if ! has "$need"; then
            missing="$missing${missing:+, }$need"
            packages="$packages $(packages_of "$need")"
        fi
    done
}

# says PATTERN: the first line of apt-get's that has it.
says() {
    printf '%s\n' "$said" | grep -m 1 "$1"
}

# The one line: what is missing, its packages and, where apt-get failed, its first complaint.
give_up() {
    why=$(says 'Failed to fetch\|^E: ') || why=''
    echo "kinphlor: missing $missing; run as root: apt-get install$packages${why:+ (apt-get said: $why)}" >&2
    exit 1
}

# apt-get that asks nothing, waits while another installs, and does not wait long for a network that is not there.
apt() {
    $sudo env LC_ALL=C DEBIAN_FRONTEND=noninteractive apt-get -q -y -o Acquire::Retries=0 -o Acquire::http::Timeout=10 \
        -o DPkg::Lock::Timeout=60 "$@" </dev/null 2>&1
}

rust='rustc>=1.85 libcrypto.so.3 libgcrypt.so.20'
case ${1-} in
    lib) needs='' ;;
    demo) needs='cc' ;;
    test) needs="make cc g++ script pkg-config $rust" ;;
    bench) needs="cc $rust valgrind" ;;
    where)
        where "$2"
        exit
        ;;
    *)
        echo 'usage: host/setup.sh lib|demo|test|bench, or host/setup.sh where FILE' >&2
        exit 2
        ;;
esac

if ! has rt; then
    echo "kinphlor: missing rt, the Rattle kit's command, which is no Debian package: put it on PATH" >&2
    exit 1
fi
look
[ -n "$missing" ] || exit 0

said=''
has apt-get || give_up
if [ "$(id -u)" = 0 ]; then
    sudo=''
else
    sudo='sudo -n'
    $sudo true 2>/dev/null || give_up
fi
echo "kinphlor: installing$packages"
# A source that fails need not matter. Where all fail, there is no network.
said=$(apt update) || true
if says '^Err:' >/dev/null && ! says '^Get:\|^Hit:' >/dev/null; then give_up; fi
# shellcheck disable=SC2086
said=$(apt install --no-install-recommends --no-remove $packages) || give_up
look
[ -z "$missing" ] || give_up
