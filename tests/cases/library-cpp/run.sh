# The library for C++: takhvoi.hpp compiles without a warning, with exceptions and without, and refuses what would be used when it is gone;
# its address book prints what those in the other languages do. Each compiler that is there does it. The routines of tests/hostile do the damage
# that their table says.
. "$top/tests/with_library.sh"

strict="-std=c++17 -Wall -Wextra -Wpedantic -Wconversion -Werror -g -I. -I$top/library"
for compiler in c++ clang++; do
    command -v "$compiler" >/dev/null || continue
    checks=-fsanitize=address,undefined
    makes $compiler -x c $checks || checks=
    for manner in "-fexceptions $checks" -fno-exceptions; do
        $compiler $strict $manner -o types "$top/tests/library_types.cpp" libtakhvoi.a || exit
        ./types | sed '/^all is so$/d'
    done
    for misuse in 0 1 2 3 4 5 6 7; do
        $compiler $strict -DMISUSE=$misuse -fsyntax-only "$top/tests/library_misuse.cpp" 2>/dev/null && echo $misuse
    done >compiled
    [ "$(cat compiled)" = 0 ] || echo "$compiler compiles these misuses: $(cat compiled)"
    $compiler $strict -o book_program "$top/library/book.cpp" libtakhvoi.a || exit
done
c++ $strict -o by_cpp "$top/tests/hostile/by_cpp.cpp" libtakhvoi.a || exit

hostile() {
    ./by_cpp "$@"
}
. "$top/tests/hostile/judge.sh"

book() {
    ./book_program "$@"
}
. "$top/tests/address_book.sh"
