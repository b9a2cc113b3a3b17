# The library's calls on files, with each call of the system refused, interrupted and cut short in turn; and calls with null in the place of each
# pointer.
. "$top/tests/with_library.sh"
wraps=-Wl,--wrap=pwrite,--wrap=pread,--wrap=fdatasync,--wrap=fsync,--wrap=ftruncate,--wrap=linkat,--wrap=unlinkat
cc -std=c99 -D_POSIX_C_SOURCE=200809L -Wall -Wextra -Werror -O2 -I. $wraps -o refused "$top/tests/refused_files.c" libtakhvoi.a && ./refused a.vm
cc -std=c99 -Wall -Wextra -Werror -O2 -I. -o nulls "$top/tests/null_pointers.c" libtakhvoi.a && ./nulls
