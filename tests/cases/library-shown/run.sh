# Calls of the library show blocks in order of place, bytes of the region, chunks, entries of the file, routines, lines, findings, the states of a
# run and memory in it, as other calls tell them.
. "$top/tests/with_library.sh"
strict="-std=c99 -Wall -Wextra -Werror -g -O1 -I."
checks=-fsanitize=address,undefined
makes cc $checks || checks=
cc $strict $checks -o shown "$top/tests/library_shown.c" libtakhvoi.a && ./shown
