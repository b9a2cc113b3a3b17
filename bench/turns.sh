# Sourced by benchmarks of the program beside a switch interpreter in C: `beside SESSION WORD..` runs both on a session in
# turns, eleven times, C's with those words, and prints the medians of steps per second and two ratios, above 1 where the
# program is faster: that of the least times, which a busy machine slows least, and the median of the turns' ratios. Where the
# two are far apart the machine was too busy to tell. $here is the benchmark's folder, which has interpreter.c.
geos="$here/../../crates/geos/out/geos"
work=$(mktemp -d)
trap 'rm -rf "$work"' EXIT
clang -O2 -o "$work/interpreter" "$here/interpreter.c" || exit 1
"$here/../../geos" --version >/dev/null || exit 1

# milliseconds SESSION COMMAND..: how long the command takes on the session
milliseconds() {
    session=$1
    shift
    start=$(date +%s%N)
    "$@" <"$here/$session" >"$work/out" 2>"$work/err"
    end=$(date +%s%N)
    echo $(((end - start) / 1000000))
}

# median COLUMN: of the numbers in a column of the turns
median() {
    awk -v k="$1" '{ print $k }' "$work/turns" | sort -n | sed -n 6p
}

# least COLUMN: of the numbers in a column of the turns
least() {
    awk -v k="$1" '{ print $k }' "$work/turns" | sort -n | sed -n 1p
}

# beside LOOP WORD..: LOOP.session on both
beside() {
    loop=$1
    shift
    : >"$work/turns"
    for _ in 1 2 3 4 5 6 7 8 9 10 11; do
        c=$(milliseconds "$loop.session" "$work/interpreter" "$@")
        steps=$(cat "$work/err")
        wanted=$(cat "$work/out")
        took=$(milliseconds "$loop.session" "$geos")
        if [ "$(cat "$work/out")" != "$wanted" ]; then
            echo "the two disagree"
            exit 1
        fi
        awk -v g="$took" -v c="$c" 'BEGIN { printf "%d %d %.2f\n", g, c, c / g }' >>"$work/turns"
    done
    echo "$loop: $steps steps"
    awk -v s="$steps" -v t="$(median 1)" 'BEGIN { printf "geos  %6d ms  %7.1f million steps a second\n", t, s / t / 1000 }'
    awk -v s="$steps" -v t="$(median 2)" 'BEGIN { printf "C     %6d ms  %7.1f million steps a second\n", t, s / t / 1000 }'
    awk -v g="$(least 1)" -v c="$(least 2)" -v m="$(median 3)" 'BEGIN { printf "geos : C = %.2f by the least times, %.2f in the median\n", c / g, m }'
}
