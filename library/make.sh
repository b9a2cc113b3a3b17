#!/bin/sh
# Makes the library: `library/make.sh FOLDER` puts libtakhvoi.a, libtakhvoi.so.N, its link libtakhvoi.so and the headers for C into the
# folder; N is TAKHVOI_ABI of the header. It takes the static library that `./build takhvoi` gives, the host for files (takhvoi_file.c), and
# of the kit's C code what is called, and leaves no names but our own in one object. With the word by-rattle it takes what Rattle's own
# compiler makes, where that of LLVM is meant, and makes no shared library.
top=$(dirname "$(dirname "$(readlink -f "$0")")")

say() {
    echo "make.sh: $*" >&2
}

[ -n "$1" ] || { say "give the folder"; exit 2; }
for tool in rt cc ld objcopy ar; do
    command -v "$tool" >/dev/null || { say "there is no $tool"; exit 1; }
done
built=$("$top/build" takhvoi)${2:+.$2} && [ -f "$built" ] || { say "the library was not built"; exit 1; }

below=$(dirname "$(dirname "$(readlink -f "$(command -v rt)")")")/c
work=$(mktemp -d) || exit
trap 'rm -rf "$work"' EXIT
mkdir -p "$1" &&
    cp "$top/library/takhvoi.h" "$top/library/takhvoi_file.h" "$1" &&
    awk -f "$top/library/tested.awk" "$top/library/takhvoi.h" "$top/library/takhvoi_file.h" >"$1/takhvoi_tested.h" &&
    cc -std=c99 -O2 -fPIC -Wall -Wextra -Werror -c -o "$work/file.o" "$top/library/takhvoi_file.c" &&
    ld -r -o "$work/whole.o" "$work/file.o" --whole-archive "$built" --no-whole-archive "$below/libos_c.a" "$below/liblibc_c.a" &&
    objcopy --wildcard --keep-global-symbol='takhvoi_*' "$work/whole.o" "$work/takhvoi.o" &&
    rm -f "$1/libtakhvoi.a" && ar rcs "$1/libtakhvoi.a" "$work/takhvoi.o" || exit
[ -z "$2" ] || exit 0
shared=libtakhvoi.so.$(sed -n 's/^#define TAKHVOI_ABI //p' "$top/library/takhvoi.h")
cc -shared -o "$1/$shared" "-Wl,-soname,$shared" -Wl,--whole-archive "$1/libtakhvoi.a" -Wl,--no-whole-archive && ln -sf "$shared" "$1/libtakhvoi.so"
