#!/bin/sh
# The compiler that rattle calls with the proved module (lib.sh sees to it): the kit's own, its call turned for a machine, and for speed or
# size. rattle calls it in a folder of its own, with no environment, as
#   clang --target=x86_64-unknown-linux-gnu --sysroot=DIR -march=x86-64 .. -Werror -c -x ir module.bc -o module.o -fPIC -O3
# usage: clang.sh CLANG TARGET VARIANT WORDS...   or: clang.sh targets
set -eu
if [ "$*" = targets ]; then echo x86-64 aarch64 riscv64 armv7 cortex-m3; exit; fi
if [ $# -lt 3 ]; then sed -n '/^# usage: /s/^# //p' "$0" >&2; exit 2; fi
clang=$1 target=$2 variant=$3
shift 3

# As it came: what `rt lib` makes.
if [ "$target $variant" = 'x86-64 speed' ]; then exec "$clang" "$@"; fi

case $target in
x86-64) machine='' ;;
aarch64) machine='--target=aarch64-unknown-linux-gnu -fPIC' ;;
# no access to places that are not aligned: not every machine of rv64gc has it without a trap
riscv64) machine='--target=riscv64-unknown-linux-gnu -march=rv64gc -mabi=lp64d -mstrict-align -fPIC' ;;
# Thumb-2 and the floating point registers of Debian's armhf
armv7) machine='--target=armv7-unknown-linux-gnueabihf -mthumb -mfpu=vfpv3-d16 -fPIC' ;;
# -meabi gnu: memcpy, memmove and memset by these names; and firmware stays where it was linked
cortex-m3) machine='--target=thumbv7m-none-eabi -mcpu=cortex-m3 -mfloat-abi=soft -meabi gnu' ;;
*) echo "clang.sh: no target $target" >&2; exit 2 ;;
esac

module=module.bc
if [ -n "$machine" ]; then
    "$clang" -S -emit-llvm -Xclang -disable-llvm-passes -Wno-override-module -x ir module.bc -o module.ll
    python3 "$(dirname "$0")/retarget.py" <module.ll >machine.ll
    module=machine.ll
fi

# The call's words, without the module, which comes last here, and without x86-64's where it is another machine.
for word; do
    shift
    case $word in
    module.bc) continue ;;
    --target=* | -march=* | -fPIC) [ -z "$machine" ] || continue ;;
    esac
    set -- "$@" "$word"
done
# shellcheck disable=SC2086
[ -z "$machine" ] || set -- "$@" $machine -Wno-override-module

case $variant in
speed) exec "$clang" "$@" "$module" ;;
# Two rounds: -Oz to bitcode, and from there -O3, which alone has records passed in registers. Every function is marked minsize: the level by
# itself changes nothing in how code is generated from a module.
small)
    set -- "$@" -mllvm -force-attribute=minsize
    "$clang" "$@" -Oz -emit-llvm -o small.bc "$module"
    exec "$clang" "$@" small.bc
    ;;
*) echo "clang.sh: no variant $variant" >&2; exit 2 ;;
esac
