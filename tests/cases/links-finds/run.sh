# Links and names that lead nowhere are reported, and only these.
folder=$(mktemp -d)
trap 'rm -rf "$folder"' EXIT
cd "$folder" || exit
mkdir -p docs crates/one/src crates/one/specs crates/two/src crates/two/specs crates/one/out
echo 'pub fn make() {}' >crates/one/src/lib.rt
echo 'impl Whole { pub fn take_all() {} }' >crates/two/src/lib.rt
echo 'record Whole { part : N }' >crates/one/specs/Rules.antt
printf '# One `make`, and more\n\n    # no head\n\n`part`, but here no `take_all`\n' >crates/one/README.md
printf '`take_all` is of this crate, `make` of one and `none` of no crate\n' >crates/two/README.md
# In each line one that does not exist. Code is not read, nor what is no path of ours.
cat >docs/page.md <<'END'
[good](../crates/one/README.md#one-make-and-more) [bad](../crates/one/README.md#no-head)
[good](page.md) [bad](other.md), [far](https://example.org/none)
`crates/one`, `one/src/lib.rt`, `specs/Rules`, and `specs/Laws`
`Rules.Whole`, `Whole.part`, `specs/Rules.part`, and `specs/Rules.whole`
`one::make`, `two::of::take_all(a)`, `std::none`, and `two::make`
`Whole::take_all`, `take_all`, `none`, and `Whole::make`, `take_none`, `IsWhole`
`lib.rt`, `usr/none`, `4.5`, and `none.rt`
[good](../docs) `docs/*.md` `crates/NAME/src` and `docs/*.rt`

    `specs/Laws` [code](other.md)
END
python3 -B "$top/tests/links.py" "$folder"
