#!/bin/sh
# The gate: the programs' inputs and outputs, rt ci (every crate from nothing, its layout, every edit that must be refused, every program), whether each
# wrong program was refused where it is wrong, then the library that was proved, its hosts, and the library for other machines. The last line is
# that of rt ci, and it stands there only where all passed. What is missing is said ahead of all that.
#
# usage: gate.sh
#
# `make test` calls it. What takes long in it is rt ci and what is tried behind it: from nothing half an hour, and where an earlier run on this machine passed
# the same, minutes. Exits 0 where all passed, 1 where something did not, 2 where something is missing.
set -eu
help() { sed -n '/^#!/d; /^#/!q; s/^# \{0,1\}//p' "$0"; }
case ${1-} in -h | --help) help; exit ;; esac
[ $# -eq 0 ] || { help | grep '^usage: ' >&2; exit 2; }
cd "$(dirname "$0")/.."
mkdir -p build
make="make --no-print-directory ASKED=yes"

sh tests/needs.sh kit host gate cross
$make vectors

# build/ci.log keeps what rt says; its last line is held back to the end.
rm -f build/ci.passed
proving=$(sh host/lib.sh --sum)
{ rt ci 2>&1 && touch build/ci.passed; } | tee build/ci.log | sed '$d'
verdict=$(tail -n 1 build/ci.log)
[ -f build/ci.passed ] || { echo "$verdict"; exit 1; }
# An edit that cannot be applied, compiled or read fails nothing in rt ci.
if grep '^rt: ok;.*, [0-9]* bad;' build/ci.log >/dev/null; then echo "gate: wrong programs that were not tried, by rt's line above: N bad"; exit 1; fi
python3 tests/refused.py --each || { echo "gate: a wrong program was not refused where it is wrong"; exit 1; }

# The library anew, over the crates that rt ci has proved.
sh host/lib.sh --proved "$proving"
rm -rf build/checked build/checked.key
find build -name '*.a.key' -delete
$make -j2 --output-sync=target checks || { echo "gate: the host tests failed"; exit 1; }

case $verdict in
*' passed, 0 failed') echo "$verdict" ;;
*) echo "gate: rt ci ended in: $verdict"; exit 1 ;;
esac
