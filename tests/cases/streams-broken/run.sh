# Each command with standard streams that are closed, full, slow or broken, and with what is no VM file.
python3 "$top/tests/broken_streams.py" "$(readlink -f "$1")" "$top"
