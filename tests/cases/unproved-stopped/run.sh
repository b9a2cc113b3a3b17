# An unproved run or a build that is stopped ends at once, and leaves neither a process nor a file, beside the build's log and lock.
. "$top/tests/with_stub.sh"
cp "$top/examples/add.asm" .
STUB_WAITS=$folder/waits
export STUB_WAITS
: >"$STUB_WAITS"

# stopped SIGNAL COMMAND..: the command in a process group of its own, to which the signal goes once its
# stand-in for rt is at work. If the tests run under nohup, the command does not inherit that signals are ignored.
stopped() {
    signal=$1
    shift
    env --default-signal=HUP,INT,TERM setsid "$@" >found 2>said </dev/null &
    until_at_work 1
    sleep 0.3
    kill -s "$signal" -- -$!
    wait $!
    status=$?
    until_at_work 0
    echo "$signal: status $status, at work: $(at_work), printed: $(cat found)"
    made
}

# How many stand-ins for rt are at work.
at_work() {
    pgrep -f "stub_rt.py $program" | wc -l
}

# until_at_work COUNT: waits for at most a minute until so many are at work
until_at_work() {
    turn=0
    while [ "$(at_work)" -ne "$1" ] && [ "$turn" -lt 300 ]; do
        sleep 0.2
        turn=$((turn + 1))
    done
}
cp "$1" "$folder/program"
program=$folder/program
printf '#!/bin/sh\nexec python3 -B "%s/tests/stub_rt.py" "%s" "$@"\n' "$top" "$program" >"$folder/bin/rt"
stopped TERM "$folder/top/geos" call add.asm add 2 3
stopped INT "$folder/top/geos" call add.asm add 2 3
stopped HUP "$folder/top/geos" call add.asm add 2 3
stopped TERM "$folder/top/build" geos
stopped HUP "$folder/top/build" geos
rm "$STUB_WAITS"
GEOS_PROVED=1 "$folder/top/geos" call add.asm add 2 3 2>/dev/null
