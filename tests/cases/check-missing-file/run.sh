cd /
"$1" check no-such-file
