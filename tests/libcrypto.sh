#!/bin/sh
# Leaves Debian's static libcrypto of another architecture, and its headers, in FOLDER. Nothing is installed: the package is looked up in lists of
# its own, and unpacked. Where it cannot be had, it says so and leaves nothing.
#
# usage: libcrypto.sh ARCHITECTURE FOLDER
#
# `make targets` calls it, for arm64 and armhf. It needs apt-get and Debian's archive, nothing that is built, and takes some seconds. Exits 0, also where
# FOLDER has it already, 1 where it cannot be had, 2 where it is called wrongly.
set -eu
help() { sed -n '/^#!/d; /^#/!q; s/^# \{0,1\}//p' "$0"; }
case ${1-} in -h | --help) help; exit ;; esac
[ $# -eq 2 ] || { help | grep '^usage: ' >&2; exit 2; }
architecture=$1 folder=$2
[ ! -d "$folder/usr" ] || exit 0
mkdir -p "$folder"
folder=$(cd "$folder" && pwd -P)
work=$folder/apt
mkdir -p "$work/lists/partial" "$work/cache/archives/partial" "$work/unpacked"
: >"$work/status"

get() {
    apt-get -qq -o APT::Architecture="$architecture" -o APT::Architectures="$architecture" -o Dir::State="$work" -o Dir::State::lists="$work/lists" \
        -o Dir::State::status="$work/status" -o Dir::Cache="$work/cache" -o APT::Sandbox::User=root "$@" >>"$work/log" 2>&1
}
# a list that fails is not always the one that is needed
get update || true
if (cd "$work" && get download libssl-dev) && dpkg-deb -x "$work"/libssl-dev_*.deb "$work/unpacked"; then
    # links to the shared libraries, which another package has; rt takes no checkout with a link in it
    find "$work/unpacked/usr" -type l -exec rm {} +
    mv "$work/unpacked/usr" "$folder/usr"
    rm -rf "$work"
else
    echo "libcrypto: apt-get has none for $architecture: $(tail -n 1 "$work/log")" >&2
    rm -rf "$work"
    rmdir "$folder" 2>/dev/null || true
    exit 1
fi
