# `geos lsp`: what an editor is told of a text as its author types: faults, refusals and warnings at their places, edits that mend them, what
# is known at an instruction, definitions, uses and new names, an outline, columns; and of a source of the language.
here=$(cd "$(dirname "$0")" && pwd)
PYTHONPATH=$top/tests python3 -B "$here/session.py" "$(readlink -f "$1")"
