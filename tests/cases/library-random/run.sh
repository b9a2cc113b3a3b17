# 1,000,000 random calls of the library answer as a model of blocks and chunks in C has it; fewer where clang compiles the program, and under
# valgrind, where these are there.
. "$top/tests/with_library.sh"
strict="-std=c99 -D_POSIX_C_SOURCE=200809L -Wall -Wextra -Werror -g -O2 -I."
checks=-fsanitize=address,undefined
makes cc $checks || checks=
cc $strict $checks -o checked "$top/tests/random_library.c" libtakhvoi.a && ./checked checked.vm 1000000
if command -v clang >/dev/null; then
    clang $strict -o clanged "$top/tests/random_library.c" libtakhvoi.a && ./clanged clanged.vm 100000 >log 2>&1 || cat log
fi
if command -v valgrind >/dev/null; then
    cc $strict -o plain "$top/tests/random_library.c" libtakhvoi.a &&
        valgrind -q --error-exitcode=9 --leak-check=full ./plain plain.vm 50000 >log 2>&1 || cat log
fi
