# An installation that cannot copy all of its files, as on a full disk, leaves what was installed before, and nothing else.
folder=$(mktemp -d)
trap 'rm -rf "$folder"' EXIT
cd "$folder" && mkdir -p stage/bin stage/share/doc root/bin || exit
cp "$1" stage/bin/geos
echo new | tee stage/bin/also >stage/share/doc/page
echo old | tee root/bin/geos >root/bin/also
place() {
    "$top/install/place.sh" stage root share/doc/installed
}
# No file may be larger than 100 blocks, and the program is.
(ulimit -f 100 && place) 2>&1 | grep "^place.sh"
find root ! -type d | sort && cat root/bin/also
place && cmp "$1" root/bin/geos && find root ! -type d | sort
# The next version has no such page.
rm stage/share/doc/page
place && find root ! -type d | sort
"$top/install/place.sh" --remove root share/doc/installed && find root
