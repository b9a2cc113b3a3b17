"$1" no-such-command 2>/dev/full
