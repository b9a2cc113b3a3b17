# The library is installed below a folder, twice: C finds it by pkg-config and CMake, also after the folder has moved, Python and Rust where
# they lie; its man page has all that the header declares, and nothing is left of it when it is uninstalled.
. "$top/tests/with_library.sh"
root=$folder/root
run_make() {
    make -s -C "$top" LIBRARY="$folder" PREFIX="$root" "$1" 2>&1
}
run_make install-library
run_make install-library
(cd "$root" && find . ! -type d ! -path './share/doc/takhvoi/*' | sort)
for page in docs/EMBEDDING.md docs/INSTRUCTIONS.md docs/figures/host.svg examples/add.asm; do
    cmp -s "$top/$page" "$root/share/doc/takhvoi/$page" || grep -qsF "$(head -n 1 "$top/$page")" "$root/share/doc/takhvoi/$page" || echo "no $page"
done
# A program that is linked with the shared library asks for the name with the number of the header.
shared=libtakhvoi.so.$(sed -n 's/^#define TAKHVOI_ABI //p' takhvoi.h)
cc -std=c99 -o shared -I"$root/include" "$top/library/book.c" -L"$root/lib" -ltakhvoi
readelf -d shared | grep -c "NEEDED.*\[$shared\]"
LD_LIBRARY_PATH=$root/lib ./shared s.vm add Bohr 17 && LD_LIBRARY_PATH=$root/lib ./shared s.vm list
mv "$root" "$folder/moved"
root=$folder/moved

PKG_CONFIG_PATH=$root/lib/pkgconfig
export PKG_CONFIG_PATH
pkg-config --validate takhvoi && pkg-config --modversion takhvoi
cc -std=c99 -Wall -Wextra -Werror -o program $(pkg-config --cflags takhvoi) "$top/library/book.c" $(pkg-config --libs takhvoi) &&
    ./program b.vm add Curie 29 && ./program b.vm list
# CMake takes the static library and the shared one, and no later version than it is.
if command -v cmake >/dev/null; then
    mkdir project && cp "$top/library/book.c" project
    cat >project/CMakeLists.txt <<'END'
cmake_minimum_required(VERSION 3.13)
project(book C)
find_package(takhvoi 0.1 REQUIRED)
find_package(takhvoi 0.2 QUIET)
if(takhvoi_FOUND)
  message(SEND_ERROR "a later version is taken")
endif()
find_package(takhvoi REQUIRED)
foreach(kind takhvoi shared)
  add_executable(book_${kind} book.c)
  target_link_libraries(book_${kind} takhvoi::${kind})
endforeach()
END
    cmake -S project -B built -DCMAKE_PREFIX_PATH="$root" >log 2>&1 && cmake --build built >>log 2>&1 || cat log
    [ "$(built/book_takhvoi b.vm list && built/book_shared b.vm list)" = "Curie 29
Curie 29" ] || echo "a program that CMake made lists something else"
fi
! command -v python3 >/dev/null || PYTHONDONTWRITEBYTECODE=1 PYTHONPATH="$root/share/takhvoi/python" python3 -c 'import takhvoi'
if command -v cargo >/dev/null; then
    CARGO_TARGET_DIR=$folder/target cargo build --offline --quiet --manifest-path "$root/share/takhvoi/rust/Cargo.toml" 2>&1
    rm -f "$root/share/takhvoi/rust/Cargo.lock"
fi

page=$root/share/man/man3/takhvoi.3
grep '^\.SH' "$page"
! command -v groff >/dev/null || groff -man -ww -z "$page" 2>&1
# Each function, number and text of the header stands in the page.
cat takhvoi.h takhvoi_file.h | grep -o '\(takhvoi_[a-z0-9_]*(\|TAKHVOI_[A-Z_]*\)' | sort -u | grep -v '^TAKHVOI_\(FILE_H\|H\|CALL\|USED\)$' |
    while read -r name; do
        grep -qF "$name" "$page" || echo "the page has nothing of $name"
    done
grep "^version = \"$(pkg-config --modversion takhvoi)\"" "$root/share/takhvoi/rust/Cargo.toml"

run_make uninstall
find "$root" -type f
