# A request that may change a file, or that reads a VM file, is not answered by an unproved build: ./geos proves first, and says so.
# GEOS_PROVED=1 asks for that of every request. After that the proved program answers at once.
. "$top/tests/with_stub.sh"
cp "$top/examples/add.asm" "$top/examples/counter.asm" "$top/examples/counter.script" "$folder"

# proves WORD..: what ./geos says first in a checkout in which nothing is built
proves() {
    rm -rf "$folder/top/crates/geos/out" "$folder/top/out"
    "$folder/top/geos" "$@" <"$folder/counter.script" >found 2>said
    status=$?
    echo "$1: status $status, $(sed -n '1s/[0-9]* minutes/N minutes/p' said), $(grep -c 'crates: [a-z_]* is proved' said) crates" |
        sed "s/ $crates crates/ ALL crates/g"
}
proves new counter.vm
proves call counter.asm --file counter.vm
cat found
proves run counter.asm counter.vm counter.script
cat found
proves trace counter.asm count --file counter.vm
proves test counter.asm counter.script --file counter.vm
proves asm add.asm add.image
proves asm --all-rows -- add.asm -image
proves budget add.asm add.least
proves budget add.asm --in-place
proves --diagnostics call counter.asm --file counter.vm
proves --color always new colored.vm
proves copy counter.vm copy.vm
proves dump counter.vm
proves diff counter.vm copy.vm
proves map counter.vm
proves shell counter.asm
GEOS_PROVED=1
export GEOS_PROVED
proves call add.asm add 2 3
cat found
unset GEOS_PROVED
"$folder/top/geos" call add.asm add 2 3
"$folder/top/build" geos | grep -c '/top/crates/geos/out/geos$'
echo ' ' >"$folder/top/crates/geos_infer/src/lib.rt"
"$folder/top/geos" call add.asm add 2 3 2>&1 | sed 's/,.*//'
