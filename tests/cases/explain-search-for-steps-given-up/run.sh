# A search for steps that takes too long is given up, and the first way back is named. Each of the numbers that k0 is set to makes ways
# through the loop dearer, and all its places, each of which leads one place back, are looked at again.
# The numbers were found by trials: the looks pass their limit with a tenth less prices, or 60 places less, too.
prices=140
places=1760
text() {
    echo 'routine f budget 60000'
    echo ' RET'
    echo 'routine a public budget 4294967295'
    echo ' SETK k1 65535'
    echo ' BEQ w0 w1 g'
    seq -f ' BEQ w0 w1 f%.0f' 1 "$prices"
    echo 'g: JMP v1'
    for i in $(seq "$prices"); do
        echo "f$i: SETK k0 $((60400 - 400 * i))"
        echo " JMP s$i"
    done
    echo 'v0: CALL f'
    echo ' JMP s1'
    for i in $(seq $((places - 1))); do
        echo "v$i: BEQ w0 w1 v$((i + 1))"
        echo " LOOP k1 v$((i - 1))"
    done
    echo "v$places: LOOP k1 v$((places - 1))"
    echo ' RET'
    seq -f 's%.0f: LOOP k0 t' 1 "$prices"
    echo ' RET'
    echo "t: JMP v$places"
}
text | "$1" explain -
