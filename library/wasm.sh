#!/bin/sh
# Makes a WebAssembly module of the library: `library/wasm.sh MODULE`, of what `./build takhvoi` has proved.
#
# The kit compiles no code for wasm64 that uses the heap. So this takes LLVM's module of the proved build for x86-64, whose pointers have 64
# bits too, names wasm64 as its target, and compiles it with the kit's clang. `heap.c` replaces the C library. The module imports nothing. It
# exports its memory, the functions of takhvoi.h, and `page_alloc` and `page_free` of heap.c.
top=$(dirname "$(dirname "$(readlink -f "$0")")")

say() {
    echo "wasm.sh: $*" >&2
    exit 1
}

[ -n "$1" ] || { echo "wasm.sh: give the name of the module" >&2; exit 2; }
command -v rt >/dev/null || say "there is no rt on the PATH"
kit=$(dirname "$(dirname "$(readlink -f "$(command -v rt)")")")
made=$("$top/build" takhvoi)
[ -f "$made.bc" ] || say "the library was not built"
work=$(mktemp -d) || exit
trap 'rm -rf "$work"' EXIT
clang=$kit/toolchain/bin/clang
ln -s "$kit/toolchain/bin/ld.lld" "$work/wasm-ld"

# LLVM's module as a text, with another target.
"$clang" -S -emit-llvm -O0 -Xclang -disable-llvm-passes -Wno-everything -x ir "$made.bc" -o "$work/takhvoi.ll" || exit
sed -i -e 's/^target datalayout = .*/target datalayout = "e-m:e-p:64:64-p10:8:8-p20:8:8-i64:64-i128:128-n32:64-S128-ni:1:10:20"/' \
    -e 's/^target triple = .*/target triple = "wasm64-unknown-unknown"/' \
    -e 's/ "probe-stack"="inline-asm"//; s/ "stack-probe-size"="[0-9]*"//' \
    -e 's/"target-cpu"="[^"]*"/"target-cpu"="lime1"/; s/ "target-features"="[^"]*"//' "$work/takhvoi.ll"

set -- "$1" --target=wasm64-unknown-unknown -mcpu=lime1 -mbulk-memory -mllvm -expand-div-rem-bits=64 -mllvm -expand-fp-convert-bits=64 \
    -ffunction-sections -fdata-sections --no-default-config
module=$1
shift
exports=$(sed -n 's/^define [^@]*@\(takhvoi_[a-z_0-9]*\)(.*/--export=\1/p' "$work/takhvoi.ll")
"$clang" "$@" -Wno-override-module -O3 -c -x ir "$work/takhvoi.ll" -o "$work/takhvoi.o" &&
    "$clang" "$@" -ffreestanding -nostdlib -O2 -Wall -Wextra -c "$top/library/heap.c" -o "$work/heap.o" &&
    "$work/wasm-ld" -mwasm64 --no-entry --gc-sections --stack-first -z stack-size=1048576 --strip-all $exports \
        "$work/takhvoi.o" "$work/heap.o" -o "$module"
