# `geos lsp` on what no editor should send: malformed JSON and headers, messages in pieces, places and edits past the end, huge and endless
# input, a stream that closes. It answers, or ends with status 1 and one line; it never stops to answer.
here=$(cd "$(dirname "$0")" && pwd)
PYTHONPATH=$top/tests python3 -B "$here/hostile.py" "$(readlink -f "$1")" 2>&1
