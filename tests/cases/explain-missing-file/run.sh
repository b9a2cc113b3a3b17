cd /
"$1" explain no-such-file
