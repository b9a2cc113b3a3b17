# `geos lsp` offers an edit for a refusal only if the refusal is gone after the edit, and no other one is new: CHK with a label after which
# the routine only unlocks and returns, marks, and items of the lines `in` and `out`.
here=$(cd "$(dirname "$0")" && pwd)
PYTHONPATH=$top/tests python3 -B "$here/session.py" "$(readlink -f "$1")"
