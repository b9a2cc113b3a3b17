# A copy between two slots: the example of lines.
"$1" call "$top/examples/line.asm" <"$top/examples/line.script"
