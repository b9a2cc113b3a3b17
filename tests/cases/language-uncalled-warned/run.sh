# With --diagnostics, warnings name the routines of a source that no public routine calls, without those of the library and of files that the
# source uses. The faults of these files are found.
export LC_ALL=C
folder=$(mktemp -d)
trap 'rm -rf "$folder"' EXIT
cd "$folder" || exit 1
cat >main.tkv <<'END'
use "part.tkv";
use std;
fn once(n) -> m { return n; }
fn twice(n) -> m { return once(n) + once(n); }
fn spare(n) -> m { return once(n); }

inline fn first() { second(); }
fn second() { out(2)?; }
pub fn main(n) { out(twice(n))?; }
END
echo 'fn part(n) -> m { return n; }' >part.tkv
said() {
    echo "\$ geos $*"
    "$program" "$@" 2>&1
}
program=$1
said --diagnostics check main.tkv
said --diagnostics call main.tkv main 4
said --diagnostics --no-warnings check main.tkv
said check main.tkv
said check main.tkv --json
said check main.tkv --json --no-warnings
said --diagnostics asm main.tkv main.image
echo 'fn part(n) -> m { return k; }' >part.tkv
said --diagnostics check main.tkv
exit 0
