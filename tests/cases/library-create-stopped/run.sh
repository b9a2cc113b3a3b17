# A process that makes a VM file with the library is killed before each of its calls of the system, the first write among them. The path has no
# file or a whole one then, and the next call in the folder goes on and removes what was left.
. "$top/tests/with_library.sh"
wraps=-Wl,--wrap=openat,--wrap=flock,--wrap=ftruncate,--wrap=pwrite,--wrap=fdatasync,--wrap=fsync,--wrap=linkat,--wrap=unlinkat
cc -std=c99 -D_POSIX_C_SOURCE=200809L -Wall -Wextra -Werror -O2 -I. $wraps -o stopped "$top/tests/stopped_create.c" libtakhvoi.a || exit
mkdir made
./stopped made
