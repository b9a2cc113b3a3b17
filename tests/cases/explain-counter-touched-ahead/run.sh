# A call touches the counter of a LOOP whose way leads on, within its loop or before it.
folder=$(dirname "$0")
"$1" explain "$folder/within.asm" 2>&1
"$1" explain "$folder/before.asm" 2>&1
exit 0
