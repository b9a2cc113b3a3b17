"$1" --version >/dev/full
