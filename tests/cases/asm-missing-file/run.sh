cd /
"$1" asm no-such-file no-such-folder/image
