# Commands that print something other than a page says, and quotes that are none, are reported; with --write the page has what they print.
folder=$(mktemp -d)
trap 'rm -rf "$folder"' EXIT
mkdir "$folder/examples" "$folder/library"
printf 'one (a\nb) two\nc d\n' >"$folder/examples/quoted.txt"
cat >"$folder/page.md" <<'END'
```text note.txt
one
two
three
```

```console
$ cat note.txt
one
..
$ cat note.txt
one
..
two
$ echo a
> echo b
```

```sh
echo this does not run
```

```text note.txt
four
```

```text examples/quoted.txt
(a b)
  .. c d
```

```text examples/quoted.txt
c d e
```

```console
$ false; echo $?
1
$ cat note.txt none.txt
five
```
END
python3 -B "$top/tests/fences.py" "$1" "$folder" page.md
python3 -B "$top/tests/fences.py" "$1" "$folder" page.md --write
python3 -B "$top/tests/fences.py" "$1" "$folder" page.md
sed -n '/^\$ cat/,$p' "$folder/page.md"
