# The library as LLVM makes it, and as Rattle's own compiler does: by both the address book and random calls print the same, and leave the
# same VM files.
. "$top/tests/with_library.sh"
"$top/library/make.sh" by-rattle by-rattle >log 2>&1 || { tail -n 3 log; exit 1; }
strict="-std=c99 -D_POSIX_C_SOURCE=200809L -Wall -Wextra -Werror -O2 -I."

# What the programs print with the library of a folder, in which they leave their files.
use() (
    cc $strict -o "$1/book_program" "$top/library/book.c" "$1/libtakhvoi.a" &&
        cc $strict -o "$1/random" "$top/tests/random_library.c" "$1/libtakhvoi.a" && cd "$1" || exit
    book() {
        ./book_program "$@"
    }
    . "$top/tests/address_book.sh"
    COUNTS=1 ./random random.vm 200000 2>&1
)
use . >printed
use by-rattle | diff printed -
for file in b.vm random.vm; do cmp "$file" "by-rattle/$file"; done
# How many calls are done and how many refused is compared, and not known from elsewhere.
grep -v " done, " printed
