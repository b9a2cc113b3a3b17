# A host limits the bytes that blocks in memory may have, for itself and for a routine.
. "$top/tests/with_library.sh"
cc -std=c99 -Wall -Wextra -Werror -O2 -I"$folder" -o limited "$top/tests/limited_memory.c" "$folder/libtakhvoi.a" && ./limited
