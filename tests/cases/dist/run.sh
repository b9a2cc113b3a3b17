# `make dist` writes an archive and a Debian package. Each runs the commands of README.md and links a C program in an empty folder, with no
# `rt` on the PATH. They are the same bytes twice, and the package leaves nothing when it is removed.
. "$top/tests/with_library.sh"
PYTHONDONTWRITEBYTECODE=1
export PYTHONDONTWRITEBYTECODE
{ echo "7 passed, 0 failed"; echo "sources $("$top/build" --sums geos takhvoi | sha256sum | cut -d ' ' -f 1)"; echo "kit a kit"; } >gate
git -C "$top" rev-parse HEAD >commit 2>/dev/null || { echo "this is no checkout of git" >&2; exit 77; }
version=$(cat "$top/VERSION")
release() {
    GEOS=$program LIBRARY=$folder GATE=$1 "$top/install/dist.sh" "$2" 2>&1
}
program=$1
echo "1 passed, 0 failed" >other
release "$folder/other" "$folder/none" | sed 's/dist.sh: //'
release "$folder/gate" "$folder/dist" | sed "s|$folder/||; s/$version/VERSION/"
release "$folder/gate" "$folder/again" >/dev/null
for file in "$folder"/dist/*; do cmp "$file" "$folder/again/$(basename "$file")"; done

# uses ROOT: README's commands on the program below a folder, and a C program with its library
uses() (
    mkdir "$folder/use" && cd "$folder/use" || exit
    PATH=/usr/bin:/bin
    ln -s "$1/bin/geos" geos && ln -s "$1/share/doc/takhvoi/examples" examples
    ./geos <examples/add.session
    sed -n '/^```asm add.asm/,/^```$/{/^```/!p}' "$1/share/doc/takhvoi/README.md" >add.asm
    sed -n '/^## A first routine/,/^## /s/^\$ //p' "$1/share/doc/takhvoi/README.md" >commands
    sh -e ./commands >printed || echo "status $?"
    sed -n '1p;$p' printed
    ./geos call examples/counter.asm --file counter.vm <examples/counter.script
    export PKG_CONFIG_PATH="$1/lib/pkgconfig"
    cc -std=c99 -Wall -Wextra -Werror -o book $(pkg-config --cflags takhvoi) "$1/share/takhvoi/examples/book.c" $(pkg-config --libs takhvoi) && ./book b.vm add Curie 29 && ./book b.vm list
    for page in geos.1 geos-text.5 geos-script.5 geos-image.5 takhvoi.3; do
        [ -f "$1/share/man/man${page##*.}/$page" ] || echo "there is no page $page"
    done
    rm -rf "$folder/use"
)
mkdir archive && tar -C archive -xf "dist/takhvoi-$version-x86_64-linux.tar.gz" || exit
(cd archive && ls | sed "s/$version/VERSION/" && cd ./* && ls && ./geos <examples/add.session && sed "s/[0-9a-f]\{64\}/SUM/; /^SUM  /d; s/$(cat "$folder/commit")/COMMIT/; s/^Takhvoi $version/Takhvoi VERSION/" PROOF &&
    grep -E '^[0-9a-f]{64}  ' PROOF | sha256sum -c --quiet)
root=$(echo "$folder"/archive/*)
uses "$root"

mkdir -p deb/var/lib/dpkg/info deb/var/lib/dpkg/updates && : >deb/var/lib/dpkg/status
dpkg_there() {
    dpkg --root="$folder/deb" --log=/dev/null --force-not-root --force-depends --force-script-chrootless "$@" >log 2>&1 || cat log
}
dpkg_there --install dist/takhvoi_*.deb
uses "$folder/deb/usr"
dpkg_there --purge takhvoi
find deb -path deb/var -prune -o ! -type d -print
