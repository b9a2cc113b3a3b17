# Routines of strangers, which the library loads: each is refused for every effect of it that is not granted, and accepted if all are. Those of
# tests/hostile do the damage that their table says.
. "$top/tests/with_library.sh"
strict="-std=c99 -Wall -Wextra -Wpedantic -Wconversion -Werror -O2 -I$folder"
cc $strict -o plugins "$top/tests/hostile_plugins.c" "$folder/libtakhvoi.a" && ./plugins

cc $strict -o by_c "$top/tests/hostile/by_c.c" "$folder/libtakhvoi.a" || exit
hostile() {
    ./by_c "$@"
}
. "$top/tests/hostile/judge.sh"
