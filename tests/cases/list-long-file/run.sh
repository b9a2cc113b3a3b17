"$1" list /dev/zero
