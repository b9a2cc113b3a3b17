#!/bin/sh
# Writes a release of the proved program and library: `dist.sh FOLDER` puts takhvoi-VERSION-x86_64-linux.tar.gz and takhvoi_VERSION_amd64.deb
# into the folder. The same commit gives the same bytes. Both have the file PROOF, which says what was proved, with what, and by which gate.
#   GEOS, LIBRARY       the program, and the folder with the library; if none is given, they are built
#   GATE                what `./test` wrote when it passed (out/gate)
#   SOURCE_DATE_EPOCH   the time of each file, in seconds; the commit's own if none is given
export LC_ALL=C
umask 022
top=$(dirname "$(dirname "$(readlink -f "$0")")")
cd "$top" || exit

fail() {
    echo "dist.sh: $*" >&2
    exit 1
}

[ -n "$1" ] || fail "give the folder that the packages go to"
for tool in dpkg-deb gzip objdump sha256sum tar; do
    command -v "$tool" >/dev/null || fail "there is no $tool"
done
version=$(cat VERSION)
commit=$(git rev-parse HEAD) && SOURCE_DATE_EPOCH=${SOURCE_DATE_EPOCH:-$(git log -1 --format=%ct)} || exit
export SOURCE_DATE_EPOCH
gate=${GATE:-out/gate}
sums=$(./build --sums geos takhvoi | sha256sum | cut -d ' ' -f 1)
grep -qsx "sources $sums" "$gate" || fail "./test has not passed with the present sources; run it first"
GEOS=${GEOS:-$(./build geos)} || exit
[ "$("$GEOS" --version)" = "geos $version" ] || fail "$GEOS is not version $version"

work=$(mktemp -d) || exit
trap 'rm -rf "$work"' EXIT
name=takhvoi-$version-x86_64-linux
if [ -z "$LIBRARY" ]; then
    LIBRARY=$work/library
    library/make.sh "$LIBRARY" || exit
fi
export LIBRARY

# stage ROOT: all that is installed, below ROOT
stage() {
    install/program.sh "$GEOS" "$1" && install/documents.sh "$1" && library/install.sh "$1" &&
        prove "$1" >"$work/PROOF" && install -m 644 "$work/PROOF" "$1/share/doc/takhvoi/PROOF"
}

# prove ROOT: the file PROOF of what is below ROOT
prove() {
    echo "Takhvoi $version, source commit $commit"
    sed -n '/^kit /s//Proved with /p; /^[0-9]* passed/s/^/The gate: /p' "$gate"
    echo "Each proof and each edit that must fail was tried from these sources; SHA-256 of \`./build --sums geos takhvoi\`:"
    echo "$sums"
    echo "Built of them, with SHA-256:"
    (cd "$1" && find bin lib include -type f | sort | xargs sha256sum)
    echo "To check it: get the sources of this commit and the kit, run ./test, and compare. docs/PROOFS.md says what is trusted."
}

archive() {
    root=$work/$name
    stage "$root" && cp "$work/PROOF" "$root/PROOF" || return
    for link in README.md CHANGELOG.md docs examples; do
        ln -s "share/doc/takhvoi/$link" "$root/$link" || return
    done
    ln -s bin/geos "$root/geos" &&
        tar -C "$work" --sort=name --mtime="@$SOURCE_DATE_EPOCH" --owner=0 --group=0 --numeric-owner --format=ustar -cf "$work/tar" "$name" &&
        gzip -9n <"$work/tar" >"$work/$name.tar.gz"
}

package() {
    root=$work/deb
    stage "$root/usr" && mkdir "$root/DEBIAN" || return
    needs=$(objdump -T "$root/usr/bin/geos" "$root"/usr/lib/libtakhvoi.so* | sed -n 's/.*GLIBC_\([0-9.]*\).*/\1/p' | sort -Vu | tail -n 1)
    cat >"$root/DEBIAN/control" <<CONTROL
Package: takhvoi
Version: $version
Architecture: amd64
Maintainer: The authors of Takhvoi <takhvoi@localhost>
Section: devel
Priority: optional
Depends: libc6 (>= ${needs:-2.17})
Installed-Size: $(du -sk --apparent-size "$root/usr" | cut -f 1)
Description: memory of PC/GEOS with a bytecode verifier, proved
 Blocks that move behind handles, heaps of chunks, and files with save and
 revert, for client routines that a verifier has checked. The program geos
 and a library for C, C++, Rust and Python.
CONTROL
    (cd "$root" && find usr -type f | sort | xargs md5sum) >"$root/DEBIAN/md5sums" &&
        dpkg-deb --root-owner-group -Zgzip --build "$root" "$work/takhvoi_${version}_amd64.deb" >/dev/null
}

archive && package && mkdir -p "$1" || fail "no packages were written"
for made in "$name.tar.gz" "takhvoi_${version}_amd64.deb"; do
    cp "$work/$made" "$1/.$made.$$" && mv -f "$1/.$made.$$" "$1/$made" && echo "$1/$made" || { rm -f "$1/.$made.$$" && fail "$1 cannot be written"; }
done
