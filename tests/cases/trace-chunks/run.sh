# What a step wrote: a slot and a pointer by block and chunk, bytes of a chunk, nothing but its number where it is refused; and the steps of
# one routine alone, whatever calls it.
export LC_ALL=C
here=$(readlink -f "$(dirname "$0")")
program=$1
trace() {
    "$program" trace "$here/chunks.asm" keep "$@" 2>&1
    echo "status $?"
}
trace 150
trace 1 --only keep --steps 5
trace 50 --only double
trace 1 --count
