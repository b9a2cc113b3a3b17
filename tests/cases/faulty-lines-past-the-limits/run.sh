# The routine, the instruction and the text that are past their limits are told of.
routines() {
    for i in $(seq "$1"); do
        echo "routine r$i budget 1"
        echo ' RET'
    done
}
instructions() {
    echo 'routine many budget 1'
    yes ' RET' | head -n "$1"
}
routines 34 | "$1" explain - 2>&1
instructions 4098 | "$1" explain - 2>&1
yes ';' | head -c 1048577 | "$1" explain - 2>&1
exit 0
