#!/bin/sh
# Asks for what things here are made and run with, by the commands, headers and libraries themselves, and installs what is missing from Debian's
# packages. Where that cannot be, one line says what is missing and which package has it.
#
# usage: needs.sh GROUP...
#
#   kit    the Rattle kit, and whether it is the one that kit.txt pins; it comes with no package
#   host   what makes and runs the C hosts and their meetings with OpenSSH
#   gate   what the gate takes beside that, cargo among it, which is not installed here
#   cross  what makes and runs programs for other machines
#
# make calls it ahead of what needs it. It takes less than a second where nothing is missing, and half a minute where apt-get installs all of it.
# Exits 0, or 2 where something is missing and where it is called wrongly.
set -eu
help() { sed -n '/^#!/d; /^#/!q; s/^# \{0,1\}//p' "$0"; }
wrong() { help | grep '^usage: ' >&2; exit 2; }
case ${1-} in -h | --help) help; exit ;; esac
[ $# -gt 0 ] || wrong
for group; do
    case $group in kit | host | gate | cross) ;; *) wrong ;; esac
done
cd "$(dirname "$0")/.."
log=build/needs.log
not_to_be_run=/etc/ssh/sshd_not_to_be_run

say() { echo "needs: $*"; }
give_up() { echo "needs: $*" >&2; exit 2; }

# ---- the kit

look="README.md has more, under 'Rattle, the kit, and what is trusted'"
ask_for_kit() {
    command -v rt >/dev/null || give_up "no rt on PATH: it is the command of the Rattle kit, which proves and compiles the library; $look"
    pinned=$(cat kit.txt)
    here=$(rt version 2>&1) || give_up "the rt on PATH does not say its version: $(echo "$here" | head -n 1)"
    case $here in
    "$pinned") ;;
    rattle*) say "this kit is '$here', and the proofs were made with '$pinned' (kit.txt): whether they hold with this one the prover itself decides" ;;
    *) give_up "the rt on PATH is not the Rattle kit's: $(command -v rt); $look" ;;
    esac
}

# ---- what there is to ask for, and what has it

things_of() { # GROUP
    case $1 in
    host) echo gcc make python3 libcrypto ssh ssh-keygen sshd ;;
    gate) echo g++ cargo cmake pkg-config groff ;;
    cross) echo qemu-aarch64 qemu-riscv64 qemu-arm aarch64-linux-gnu-gcc riscv64-linux-gnu-gcc arm-linux-gnueabihf-gcc ;;
    esac
}
packages_of() { # THING
    case $1 in
    cargo) ;;
    gcc) echo gcc libc6-dev ;;
    libcrypto) echo libssl-dev ;;
    ssh | ssh-keygen) echo openssh-client ;;
    sshd) echo openssh-server ;;
    pkg-config) echo pkgconf ;;
    groff) echo groff-base ;;
    qemu-*) echo qemu-user ;;
    aarch64-linux-gnu-gcc) echo gcc-aarch64-linux-gnu libc6-dev-arm64-cross ;;
    riscv64-linux-gnu-gcc) echo gcc-riscv64-linux-gnu libc6-dev-riscv64-cross ;;
    arm-linux-gnueabihf-gcc) echo gcc-arm-linux-gnueabihf libc6-dev-armhf-cross ;;
    *) echo "$1" ;;
    esac
}

# Whether a compiler makes a program: one without a C library is there and does not.
makes() { # COMPILER HEADER WORDS...
    compiler=$1 header=$2
    shift 2
    command -v "$compiler" >/dev/null || return
    printf '#include <%s>\nint main(void) { return 0; }\n' "$header" | "$compiler" -x c - "$@" -o "$scratch" 2>/dev/null
}
rust_is_new() {
    asked=$(sed -n 's/^rust-version = "1\.\([0-9]*\)"$/\1/p' host/castulfrisa/Cargo.toml)
    here=$(rustc --version 2>/dev/null | sed -n 's/^rustc 1\.\([0-9]*\)\..*/\1/p')
    [ "${here:-0}" -ge "$asked" ]
}
has() { # THING
    case $1 in
    gcc) makes gcc stdio.h ;;
    libcrypto) makes gcc openssl/evp.h -lcrypto ;;
    *-gcc) makes "$1" stdio.h -static ;;
    sshd) command -v sshd >/dev/null || [ -x /usr/sbin/sshd ] ;;
    # a cargo that reads the workspace, and a compiler that is not older than the crate asks for
    cargo) cargo --offline metadata --format-version 1 --manifest-path host/Cargo.toml >/dev/null 2>&1 && rust_is_new ;;
    *) command -v "$1" >/dev/null ;;
    esac
}

# Puts what is missing into missing, said in words with its packages, the packages to install into packages, and what none of them has into elsewhere.
ask() { # THING...
    missing='' packages='' elsewhere=''
    for thing; do
        ! has "$thing" || continue
        case $thing in
        libcrypto) words='openssl/evp.h and -lcrypto' ;;
        *) words=$thing ;;
        esac
        of=$(packages_of "$thing")
        [ -n "$of" ] || { of="Rust's own; Debian 12's is too old" elsewhere=$thing; }
        missing="$missing${missing:+, }$words ($of)"
        for package in $(packages_of "$thing"); do
            case " $packages " in *" $package "*) ;; *) packages="$packages${packages:+ }$package" ;; esac
        done
    done
}

# ---- Debian's packages

apt() { DEBIAN_FRONTEND=noninteractive apt-get -qq -o DPkg::Lock::Timeout=300 "$@" >>$log 2>&1 </dev/null; }
install() { apt install -y --no-install-recommends $packages; }
has_lists() { ls /var/lib/apt/lists/*_Packages* >/dev/null 2>&1; }

# The places where something listens on port 22.
listening() { awk '$4 == "0A" && $2 ~ /:0016$/ { print FILENAME "," $2 }' /proc/net/tcp /proc/net/tcp6 2>/dev/null | sort -u; }

# An sshd is wanted for its program, which the tests start on a port of the loopback. Debian's unit and its init script start none where this file is.
kept=''
keep_from_starting() { [ -e $not_to_be_run ] || { mkdir -p "${not_to_be_run%/*}"; : >$not_to_be_run; kept=yes; }; }
let_start() { [ -z "$kept" ] || has sshd || rm -f $not_to_be_run; }

install_missing() {
    command -v apt-get >/dev/null || give_up "missing: $missing; in brackets Debian's packages, and there is no apt-get here"
    [ "$(id -u)" = 0 ] || give_up "missing: $missing; in brackets Debian's packages, which root installs by apt-get install $packages"
    say "missing: $missing; installing these packages of Debian's"
    case " $packages " in *' openssh-server '*) keep_from_starting ;; esac
    before=$(listening)
    : >$log
    # a list that fails is not always one that is needed
    has_lists && install || { apt update || :; install; } || {
        sed -n 's/^E: /needs: apt-get: /p' $log | tail -n 3 >&2
        give_up "missing: $missing; in brackets Debian's packages, which apt-get could not install, see $log"
    }
    for place in $(listening); do
        case " $(echo $before) " in *" $place "*) ;; *) give_up "something listens on port 22 since apt-get installed $packages" ;; esac
    done
    [ -z "$kept" ] || say "no sshd was started, and none starts at boot, by $not_to_be_run: to have Debian's own, remove that file and start ssh"
}

# ---- the groups asked for

things=''
for group; do
    case $group in
    kit) ask_for_kit ;;
    *) things="$things $(things_of "$group")" ;;
    esac
done
[ -n "$things" ] || exit 0

mkdir -p build
scratch=$(mktemp)
trap 'rm -f "$scratch"; let_start' EXIT
trap 'exit 130' HUP INT TERM
# shellcheck disable=SC2086
ask $things
[ -z "$elsewhere" ] || give_up "missing: $missing; in brackets what has it, Debian's packages but for $elsewhere"
if [ -n "$missing" ]; then
    install_missing
    ask $things
    [ -z "$missing" ] || give_up "missing, although apt-get installed $packages: $missing"
fi
