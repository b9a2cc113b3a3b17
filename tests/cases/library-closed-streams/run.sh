# A program over the library whose standard streams are closed: its VM file gets none of their numbers, so that nothing which it prints goes
# into the file.
. "$top/tests/with_library.sh"
cc -std=c99 -D_POSIX_C_SOURCE=200809L -Wall -Wextra -Werror -O2 -I. -o book "$top/library/book.c" libtakhvoi.a || exit

./book b.vm add Bohr 17 >&-
./book b.vm add Curie 29 <&- >&- 2>&-
sum=$(cksum b.vm)
./book b.vm list >&-
./book b.vm list <&- >&- 2>&-
./book b.vm remove Bohr 2>&-
[ "$(cksum b.vm)" = "$sum" ] || echo "the file has changed"
./book b.vm list
