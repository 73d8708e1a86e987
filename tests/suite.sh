#!/bin/sh
# Leaves packages of another suite of Debian, with all that they depend on, in FOLDER. Nothing is installed: they are looked up in lists of their own, in
# the archive that this machine gets its packages from, and unpacked. Where they cannot be had, it says so and leaves nothing.
#
# usage: suite.sh SUITE FOLDER PACKAGE...
#
# `make hybrids` calls it, for trixie and forky. It needs apt-get and Debian's archive, nothing that is built, and takes ten seconds and more. Other
# packages that it left in FOLDER are removed. Exits 0, 1 where they cannot be had, 2 where it is called wrongly or something else stands in FOLDER.
set -eu
help() { sed -n '/^#!/d; /^#/!q; s/^# \{0,1\}//p' "$0"; }
case ${1-} in -h | --help) help; exit ;; esac
[ $# -ge 3 ] || { help | grep '^usage: ' >&2; exit 2; }
suite=$1 folder=$2
shift 2
[ ! -f "$folder/packages" ] || [ "$(cat "$folder/packages")" != "$*" ] || exit 0
# what it left, whole or not, is its to remove, and nothing else
if [ -n "$(ls -A "$folder" 2>/dev/null)" ] && [ ! -f "$folder/packages" ] && [ ! -d "$folder/apt" ]; then
    echo "suite: $folder has other things in it" >&2
    exit 2
fi
rm -rf "$folder"
mkdir -p "$folder"
folder=$(cd "$folder" && pwd -P)
work=$folder/apt
mkdir -p "$work/lists/partial" "$work/cache/archives/partial"
: >"$work/status"
: >"$work/log"

fail() {
    echo "suite: $*: $(tail -n 1 "$work/log" | sed 's|[a-z]*://[^ ]*||')" >&2
    rm -rf "$folder"
    exit 1
}

. /etc/os-release
own=$(apt-get indextargets --format '$(REPO_URI) $(RELEASE) $(COMPONENT) $(ORIGIN)' 'Created-By: Packages' 2>>"$work/log" |
    awk -v own="$VERSION_CODENAME" '$2 == own && $3 == "main" && $4 == "Debian" { print $1; exit }')
[ -n "$own" ] || fail "this machine knows no archive of Debian"
echo "deb [signed-by=/usr/share/keyrings/debian-archive-keyring.gpg] $own $suite main" >"$work/sources.list"

get() {
    apt-get -qq -o Dir::Etc::sourcelist="$work/sources.list" -o Dir::Etc::sourceparts=- -o Dir::State="$work" -o Dir::State::lists="$work/lists" \
        -o Dir::State::status="$work/status" -o Dir::Cache="$work/cache" -o APT::Sandbox::User=root -o APT::Install-Recommends=false "$@" >>"$work/log" 2>&1
}
# where a list fails, apt-get update warns and goes on
get update -o APT::Update::Error-Mode=any || fail "Debian's archive cannot be reached, or has no $suite"
get install -y --download-only -o Debug::NoLocking=1 "$@" || fail "$suite has not all of $*"
for package in "$work"/cache/archives/*.deb; do
    dpkg-deb -x "$package" "$folder" 2>>"$work/log" || fail "cannot be unpacked"
done
rm -rf "$work"
# rt takes no checkout with a link in it: what a link leads to stands in its place
find "$folder" -type l | while read -r link; do
    to=$(readlink "$link")
    case $to in /*) to=$folder$to ;; *) to=${link%/*}/$to ;; esac
    rm "$link"
    [ ! -e "$to" ] || cp -rL "$to" "$link"
done
echo "$*" >"$folder/packages"
