# A list of items: the example of notes, on a VM file in memory.
"$1" call "$top/examples/notes.asm" <"$top/examples/notes.script"
