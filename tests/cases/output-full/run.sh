"$1" >/dev/full
