# The program, CHANGELOG.md, and the modules for Rust and Python have the version that the file VERSION has.
version=$(cat "$top/VERSION")
[ "$("$1" --version)" = "geos $version" ] || echo "geos --version prints another"
[ "$("$1" -V)" = "geos $version" ] || echo "geos -V prints another"
[ "$(sed -n 's/^## \([^ ]*\).*/\1/p' "$top/CHANGELOG.md" | head -n 1)" = "$version" ] || echo "CHANGELOG.md begins with another"
grep -qx "version = \"$version\"" "$top/bindings/rust/Cargo.toml" || echo "Cargo.toml has another"
grep -qx "__version__ = \"$version\"" "$top/bindings/python/takhvoi.py" || echo "takhvoi.py has another"
