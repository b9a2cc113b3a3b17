# Two threads with a kernel of the library each; where the compiler has it, a sanitizer looks for what they share.
. "$top/tests/with_library.sh"
strict="-std=c99 -D_POSIX_C_SOURCE=200809L -Wall -Wextra -Werror -g -O2 -pthread -I."
checks=-fsanitize=thread
makes cc $checks || checks=
cc $strict $checks -o threads "$top/tests/library_threads.c" libtakhvoi.a && ./threads
