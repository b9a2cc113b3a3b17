# Read by the cases of ./geos and ./build: makes the folder $folder, and in it a checkout `top` in which nothing is built, with empty crates,
# and a command `rt` that stands in for the kit's and runs the program that the case is given. `made` lists what a run left behind.
export LC_ALL=C
folder=$(mktemp -d)
trap 'rm -rf "$folder"' EXIT
mkdir -p "$folder/top" "$folder/bin" "$folder/tmp"
cp -R "$top/geos" "$top/build" "$top/tools" "$top/crates.txt" "$top/HANDLES" "$folder/top"
for crate in $(sed -n 's/^\([a-z_0-9]*\)[ :].*/\1/p' "$top/crates.txt"); do
    mkdir -p "$folder/top/crates/$crate/src" && : >"$folder/top/crates/$crate/src/lib.rt"
done
: >"$folder/top/crates/geos/src/main.rt"
printf '#!/bin/sh\nexec python3 -B "%s/tests/stub_rt.py" "%s" "$@"\n' "$top" "$1" >"$folder/bin/rt"
chmod +x "$folder/bin/rt"
PATH=$folder/bin:$PATH
TMPDIR=$folder/tmp
export PATH TMPDIR
cd "$folder" || exit

# How many crates the program takes, with its own.
crates=$(PYTHONPATH=$top/tools python3 -B -c 'import crates; print(len(crates.below(crates.read(), "geos")))')

# The files that runs left in the checkout's folders for output, and in the folder for temporary files.
made() {
    (cd "$folder" && find top/out top/crates/*/out tmp ! -type d 2>/dev/null | sort)
}
