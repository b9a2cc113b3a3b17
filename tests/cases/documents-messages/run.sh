# Each message of docs/ERRORS.md is one that some case prints.
python3 -B "$top/tests/messages.py" "$top"
