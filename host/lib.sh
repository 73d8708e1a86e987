#!/bin/sh
# Leaves the library in build/, twice from one proof: libcastulfrisa.a for speed, which is what `rt lib --cpu x86-64` makes of the crate `boundary_c`,
# and libcastulfrisa-small.a for size; those for another machine in build/TARGET/ (clang.sh has the targets and what differs).
# FILE.key has the sum of what FILE was made of (the sources of the crates that `boundary_c` reaches, their lines in crates.txt, the kit, the
# scripts here) and its own: where both are the same, nothing is proved or built again.
#
# usage: lib.sh [TARGET...]
#    or: lib.sh --sum             prints the sum of those sources
#    or: lib.sh --proved SUM      notes that `rt ci` passed over the sources of this sum, so that the libraries which it left are taken as they are
#
# `make lib` calls it, the gate also with the options. From nothing it takes some minutes, where nothing changed less than a second. Exits 0, 1 where
# something is not proved or not built, 2 where there is no kit or it is called wrongly.
set -eu
help() { sed -n '/^#!/d; /^#/!q; s/^# \{0,1\}//p' "$0"; }
wrong() { help | sed -n '/^usage: /p; /^   or: /p' >&2; exit 2; }
case ${1-} in -h | --help) help; exit ;; esac
cd "$(dirname "$0")/.."
command -v rt >/dev/null || exec sh tests/needs.sh kit
root=$(pwd -P)
kit=$(dirname "$(rt doc)")
log=build/lib.log
mkdir -p build

# ---- what the library is made of

top=boundary_c
line() { sed -n "s/^$1\( [^:#]*\)\{0,1\}:\([^#]*\).*/\2/p" crates.txt; }

below='' todo=$(line $top)
while [ -n "$todo" ]; do
    next=''
    for crate in $todo; do
        case " $below " in *" $crate "*) continue ;; esac
        [ -d "crates/$crate" ] || continue # a library of the kit
        below="$below $crate"
        next="$next $(line "$crate")"
    done
    todo=$(echo $next)
done
layers=$(echo $top $below | wc -w)

sum() { sha256sum | cut -d ' ' -f 1; }
sum_of_sources() {
    {
        rt version
        for crate in $top $below; do
            echo "$crate: $(line "$crate")"
            for part in src specs proofs; do
                [ ! -d "crates/$crate/$part" ] || find "crates/$crate/$part" -type f
            done | sort | xargs sha256sum
        done
    } | sum
}
# Of the libraries below as they were built: the file format of each has a sum of its other files.
sum_of_libraries() { for crate in $below; do cat "crates/$crate/out/rlib/$crate.rlib/format" || return; done 2>/dev/null | sum; }
proof=$(sum_of_sources)

case ${1-} in
--sum)
    [ $# -eq 1 ] || wrong
    echo "$proof"
    exit
    ;;
--proved)
    [ $# -eq 2 ] || wrong
    rm -f build/ci.libraries
    [ "$2" = "$proof" ] || { echo "lib: a source changed while rt ci ran"; exit 1; }
    # Where there is a stamp, the library is not rt ci's: that puts back what other commands of rt had kept.
    for crate in $below; do [ ! -e "crates/$crate/out/rlib/stamp" ] || exit 0; done
    echo "$proof $(sum_of_libraries)" >build/ci.libraries
    exit
    ;;
-*) wrong ;;
esac

# ---- what is asked for and not there

known=$(sh host/clang.sh targets)
[ $# -gt 0 ] || set -- x86-64
for target; do
    case " $known " in *" $target "*) ;; *) echo "lib: there is no target $target; there are: $known" >&2; exit 2 ;; esac
done

file_of() { # TARGET VARIANT
    case $1 in x86-64) folder=build ;; *) folder=build/$1 ;; esac
    case $2 in speed) echo "$folder/libcastulfrisa.a" ;; *) echo "$folder/libcastulfrisa-$2.a" ;; esac
}
key_of() { # TARGET VARIANT FILE
    echo "$({ echo "$proof $1 $2"; cat host/lib.sh host/clang.sh host/retarget.py; } | sum) $(sum <"$3")"
}

missing=''
for target; do
    for variant in speed small; do
        file=$(file_of "$target" $variant)
        [ -f "$file" ] && [ "$(cat "$file.key" 2>/dev/null)" = "$(key_of "$target" $variant "$file")" ] || missing="$missing $target/$variant"
    done
done
[ -n "$missing" ] || exit 0

# ---- the proof. rattle is called as `rt lib` calls it, in two steps, so that what is proved once is built as often as asked.

# as many checks at a time as there are cores, and 3 GB for each
jobs=$(awk -v cores="$(nproc)" '/^MemAvailable:/ { n = int($2 / 3000000); print n < 1 ? 1 : n < cores ? n : cores }' /proc/meminfo)

words() {
    printf '%s\n' --crate-name $top src/lib.rt --extern "std=$kit/rlibs/std.rlib" -L "dependency=$kit/rlibs"
    for crate in $(line $top); do
        if [ -d "crates/$crate" ]; then printf '%s\n' --extern "$crate=$root/crates/$crate/out/rlib/$crate.rlib"
        else printf '%s\n' --extern "$crate=$kit/rlibs/$crate.rlib"; fi
    done
    for crate in $below; do printf '%s\n' -L "dependency=$root/crates/$crate/out/rlib"; done
    # code for every x86-64, and not for those alone that have more instructions; and no C functions of its own
    printf '%s\n' --antt-project "$kit/rattle/logic/antt-project.json" --links $top= --crate-type staticlib --cpu x86-64
}
rattle() { # VERB WORDS...
    verb=$1 all=$(words) oldifs=$IFS
    shift
    IFS='
'
    # shellcheck disable=SC2086
    set -- $all "$@"
    IFS=$oldifs
    (cd crates/$top && "$kit/bin/rattle" "$verb" "$@")
}

# What lies below, and the exports over it: what rt ci left, or else all that changed since rt last proved it.
below() {
    [ "$(cat build/ci.libraries 2>/dev/null)" = "$proof $(sum_of_libraries)" ] || (cd crates/$top && rt all check --jobs "$jobs")
}
prove() {
    below || return
    echo "== $top, from nothing"
    rattle check --logic-built "$kit/logic_built" --jobs "$jobs" -o "$root/build/checked"
}

# A line for each layer that is proved now, as it comes; what was proved before only counts.
show_layers() {
    count=0 name=''
    while IFS= read -r said; do
        case $said in
        '== summary' | "== $top, from nothing") name='' ;;
        '== '*) count=$((count + 1)) name=${said#== } ;;
        'crate '*' checked=0') name='' ;;
        'logic=proved '*) [ -z "$name" ] || printf 'lib: proved %3d of %d  %s\n' $count "$layers" "$name" ;;
        esac
    done
}
layer_by_layer() { # COMMAND
    rm -f build/lib.proved
    { "$1" 2>&1 && touch build/lib.proved; } | tee $log | show_layers
    [ -f build/lib.proved ] || { tail -n 40 $log; echo "lib: not proved, see $log"; exit 1; }
}

# The library rests on no C function's contract, which nothing proves.
refuse_axioms() {
    if sed -n '/^== .* from nothing$/,$p' $log | grep -e '^axioms ' -e '^logic=proved .*axioms=' | grep -v '^axioms [^:]*: none reached of '; then
        echo "lib: not proved, it reaches C functions, whose contracts nothing proves"
        exit 1
    fi
}

if [ ! -d build/checked ] || [ "$(cat build/checked.key 2>/dev/null)" != "$proof" ]; then
    rm -f build/checked.key
    echo "lib: the library is proved before it is built, in $layers layers from the bytes up (some minutes from nothing)"
    layer_by_layer prove
    refuse_axioms
    [ "$(sum_of_sources)" = "$proof" ] || { echo "lib: a source changed while it was proved: run it again"; exit 1; }
    echo "$proof" >build/checked.key
else
    # what was proved below may have been removed, or be of other sources, since
    layer_by_layer below
fi

# ---- the archives. rattle takes the verdict only where the inputs are those that were checked.

# What rattle takes for its toolchain is made of links, and rt takes no checkout with a link in it.
scratch=$(mktemp -d)
trap 'rm -rf "$scratch"' EXIT
trap 'exit 130' HUP INT TERM

build() { # TARGET VARIANT
    file=$(file_of "$1" "$2")
    tools=$scratch/$1-$2 compiled=$root/build/compiled/$1-$2
    mkdir -p "$(dirname "$file")" "$tools/bin" "$compiled"
    ln -s "$kit/toolchain/lib" "$tools/lib"
    for tool in llvm-ar ld.lld rattle-x64; do ln -s "$kit/toolchain/bin/$tool" "$tools/bin/"; done
    # rattle hands on no environment; what it hands on stays, for `make measure` to compile again
    cat >"$tools/bin/clang" <<END
#!/bin/sh
export PATH="$PATH"
cp module.bc "$compiled/" && printf '%s\n' "$kit/toolchain/bin/clang" "\$@" | grep -v '^--sysroot=' >"$compiled/words" || exit 1
exec sh "$root/host/clang.sh" "$kit/toolchain/bin/clang" $1 $2 "\$@"
END
    chmod +x "$tools/bin/clang"
    rm -f "$file.key"
    rattle build --crate-checked "$root/build/checked" --toolchain "$tools" -o "$root/$file.new" >>$log 2>&1 || { tail -n 20 $log; echo "lib: $file not built, see $log"; return 1; }
    # the same bytes stay the same file, so that nothing that was made of it is made again
    if cmp -s "$file.new" "$file"; then rm "$file.new"; else mv "$file.new" "$file"; fi
    key_of "$1" "$2" "$file" >"$file.key"
    echo "lib: $file"
}

# two at a time
status=0 first=''
for each in $missing; do
    (build "${each%/*}" "${each#*/}") &
    if [ -z "$first" ]; then first=$!; continue; fi
    wait $! || status=1
    wait "$first" || status=1
    first=''
done
[ -z "$first" ] || wait "$first" || status=1
exit $status
