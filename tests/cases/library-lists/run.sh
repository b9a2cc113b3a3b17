# Calls of the library list handles in order, as many as there is room for, and tell how many there are; they leave the rest of a buffer, locks
# and marks as they were. An explanation of a text comes with the line and the column of the first thing that is wrong.
. "$top/tests/with_library.sh"
strict="-std=c99 -Wall -Wextra -Werror -g -O1 -I."
checks=-fsanitize=address,undefined
makes cc $checks || checks=
cc $strict $checks -o lists "$top/tests/library_lists.c" libtakhvoi.a && ./lists
