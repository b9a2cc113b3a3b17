cd /
"$1" list no-such-file
