# The library for C is made and linked with the program of library/book.c, an address book on which a checked routine of another text
# runs. The header's numbers are those of the library's source, and the archive has no names but ours.
. "$top/tests/with_library.sh"

echo "names but ours: $(nm -g --defined-only "$folder/libtakhvoi.a" | grep -v ':$' | awk 'NF > 1 { print $3 }' | grep -v '^takhvoi_' | tr '\n' ' ')"
sed -n 's/^ *TAKHVOI_\([A-Z_]*\) = \([0-9]*\),*$/\1 \2/p' "$folder/takhvoi.h" | awk '$2 == 0 || ($2 >= 100 && $2 < 200)' | sort >"$folder/header"
sed -n 's/^pub(crate) const \([A-Z_]*\): u32 = \([0-9]*\);$/\1 \2/p' "$top/crates/takhvoi/src/status.rt" | sort | cmp - "$folder/header"
sed -n 's/^\(TAKHVOI_CALL \)*uint32_t \(takhvoi_[a-z0-9_]*\)(.*/\2/p' "$folder/takhvoi.h" "$folder/takhvoi_file.h" | sort >"$folder/declared"
nm -g --defined-only "$folder/libtakhvoi.a" | sed -n 's/.* T //p' | sort | cmp - "$folder/declared"

cc -std=c99 -D_POSIX_C_SOURCE=200809L -Wall -Wextra -Werror -O2 -I"$folder" -o "$folder/book" "$top/library/book.c" "$folder/libtakhvoi.a" || exit
cc -std=c99 -D_POSIX_C_SOURCE=200809L -Wall -Wextra -Werror -O2 -I"$folder" -Wl,--wrap=malloc,--wrap=realloc -o "$folder/refused" \
    "$top/tests/refused_allocations.c" "$folder/libtakhvoi.a" || exit

# A handle is no block, and a block is no handle.
compiles() {
    printf '#include "takhvoi.h"\nuint32_t f(takhvoi_kernel *k, uint16_t h);\nuint32_t f(takhvoi_kernel *k, uint16_t h) { return %s; }\n' "$1" |
        cc -std=c99 -fsyntax-only -I"$folder" -x c - 2>/dev/null
}
compiles 'takhvoi_lalloc(k, TAKHVOI_MEM(h), 1, &h) + takhvoi_vdirty(k, h)' || echo "a call with a block is refused"
for misuse in 'takhvoi_lalloc(k, h, 1, &h)' 'takhvoi_unlock(k, h)' 'takhvoi_vdirty(k, TAKHVOI_VM(h))' 'takhvoi_mlock(k, TAKHVOI_MEM(h))'; do
    compiles "$misuse" && echo "it compiles: $misuse"
done

./refused refused.vm
./book b.vm add Bohr 17 && ./book b.vm add Curie 29 && ./book b.vm add Cantor 31 && ./book b.vm list
echo "from B to B: $(./book b.vm run "$top/library/starting.asm" 66 66)"
echo "from C to Z: $(./book b.vm run "$top/library/starting.asm" 67 90)"
# The program finds in the file what the library kept: an array of 8 + 3 * 2 + 24 bytes.
"$1" dump b.vm | sed 's/ size [0-9]*//'
# The library opens a file that the program has made.
"$1" new g.vm && ./book g.vm add Gauss 30 && ./book g.vm list
# A file that is none, a text with a fault, one for which no rows are found, and one that takes no block.
echo none >none.vm
./book none.vm list 2>&1
echo 'routine f public budget x' >fault.asm
./book b.vm run fault.asm 2>&1
./book b.vm run "$top/examples/rejected.asm" 2>&1
./book b.vm run "$top/examples/add.asm" 1 2 2>&1
echo "status $?"
