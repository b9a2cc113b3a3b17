#!/bin/sh
# Puts what is installed of the library below the folder ROOT: `library/install.sh ROOT`. ROOT may be moved afterwards. There are the static and
# the shared library, the headers, the man page, files for pkg-config and CMake, the modules for Python and Rust, and the examples.
# If LIBRARY is a folder that library/make.sh has filled, its files are taken; otherwise library/make.sh makes them first.
export LC_ALL=C
top=$(dirname "$(dirname "$(readlink -f "$0")")")

say() {
    echo "install.sh: $*" >&2
}

# go FOLDER FILE..: prints a line for each file that goes into a folder below the root: its path there, and where it is now
go() {
    folder=$1
    shift
    for file; do echo "$folder/$(basename "$file") $file"; done
}

# Makes the files that depend on the version, and prints a line for each file that is installed.
plan() {
    version=$(cat "$top/VERSION")
    date=$(date -u -d "@${SOURCE_DATE_EPOCH:-$(stat -c %Y "$top/library/takhvoi.h")}" +%Y-%m-%d)
    for file in takhvoi.pc takhvoiConfig.cmake takhvoiConfigVersion.cmake; do
        sed "s|@VERSION@|$version|; s|@ABI@|$abi|" "$top/library/$file.in" >"$work/$file" || return
    done
    awk -v version="$version" -v date="$date" -f "$top/install/header.awk" "$made/takhvoi.h" "$made/takhvoi_file.h" >"$work/takhvoi.3" || return
    go include "$made/takhvoi.h" "$made/takhvoi_file.h" "$made/takhvoi_tested.h" "$top/library/takhvoi.hpp" "$top/library/takhvoi_shown.hpp" "$top/library/takhvoi_result.hpp"
    go lib "$made/libtakhvoi.a" "$made/libtakhvoi.so.$abi"
    go lib/pkgconfig "$work/takhvoi.pc"
    go lib/cmake/takhvoi "$work/takhvoiConfig.cmake" "$work/takhvoiConfigVersion.cmake"
    go share/man/man3 "$work/takhvoi.3"
    go share/takhvoi/python "$top/bindings/python/takhvoi.py" "$top/bindings/python/_takhvoi.py" \
        "$top/bindings/python/takhvoi_shown.py"
    go share/takhvoi/rust "$top/bindings/rust/Cargo.toml" "$top/bindings/rust/build.rs"
    go share/takhvoi/rust/src "$top"/bindings/rust/src/*.rs
    go share/takhvoi/examples "$top/library/book.c" "$top/library/book.cpp" "$top/library/starting.asm" "$top/bindings/python/book.py" \
        "$top/bindings/rust/examples/book.rs"
}

root=$1
[ -n "$root" ] || { say "give the folder"; exit 2; }
work=$(mktemp -d) || exit
trap 'rm -rf "$work"' EXIT
made=$LIBRARY
if [ -z "$made" ]; then
    made=$work/made
    "$top/library/make.sh" "$made" || exit
fi
abi=$(sed -n 's/^#define TAKHVOI_ABI //p' "$made/takhvoi.h")
plan >"$work/plan" || exit
while read -r file from; do install -D -m 644 "$from" "$root/$file" || exit; done <"$work/plan"
ln -s "libtakhvoi.so.$abi" "$root/lib/libtakhvoi.so"
