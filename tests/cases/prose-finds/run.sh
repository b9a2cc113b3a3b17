# Faults that are planted in pages are reported, and only these.
folder=$(mktemp -d)
trap 'rm -rf "$folder"' EXIT
mkdir "$folder/inner" "$folder/out"
cat >"$folder/data.toml" <<'END'
longest = 9
total = 100
budget = 20
[budgets]
"long.md" = 60
"words.md" = 60
[words]
'\b[Kk]ept\b' = "stored"
'¤ comes\b' = "is returned"
[ceilings]
"gone.md" = { words = 5 }
"inner/old.md" = { private = 2, long = 1, words = 30 }
"worse.md" = { private = 1 }
END
# A word of the list; over the end of a line; in a cell of a table. None in code, and none in a longer word.
cat >"$folder/words.md" <<'END'
# A head

It is kept. `D
isk` comes, `kept` not.

    kept

| unkept | all
| it | Kept |
END
# Sentences end at a mark before a capital letter, and with a list item. They have ten words, nine, eight (a code span is one), and nine.
cat >"$folder/long.md" <<'END'
One two three four five six seven eight nine ten.
One two (e.g. four) five six seven eight nine.
One two three four `five six seven` six seven eight
- nine two three [four five](kept.md) six seven eight nine
END
# 21 words, where 20 are allowed.
cat >"$folder/over.md" <<'END'
One two three. Four five six. Seven eight nine. Ten eleven twelve. One two three. Four five six. Seven eight nine.
END
# As many as the ceilings allow, and one more than that; built files are not read. All pages together have 101 words.
printf 'It is kept.\n\nIt is kept, and one two three four five six seven.\n' >"$folder/inner/old.md"
printf 'It is kept.\nIt is kept.\n' >"$folder/worse.md"
cp "$folder/worse.md" "$folder/out/built.md"
# A help, whose usage is not read; and a message, in which the routine's name is not read.
printf 'Usage: geos kept\n\nIt is kept.\n  kept    `kept`\n' >"$folder/help"
mkdir -p "$folder/tests/cases/one"
printf '; refused by V10: a row is kept by kept\nkept\n' >"$folder/tests/cases/one/stdout"
# Comments of a crate, over the end of a line; not its code, nor what a tool has made.
mkdir -p "$folder/crates/one/specs" "$folder/crates/one/src"
printf -- '-- It is stored.\nkept = 1\n-- `Kept`, and D\n-- it is kept\n' >"$folder/crates/one/specs/Kept.antt"
printf '//! Made by tools/kept.py.\n// It is kept.\n' >"$folder/crates/one/src/made.rt"
printf '    /// It is\n    /// kept.\n    let kept = 1; // kept\n' >"$folder/crates/one/src/lib.rt"
python3 -B "$top/tests/prose.py" "$folder" "$folder/data.toml" "$folder/help"
echo "with --all"
python3 -B "$top/tests/prose.py" "$folder" "$folder/data.toml" --all | grep old
