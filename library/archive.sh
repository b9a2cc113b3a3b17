#!/bin/sh
# Makes a static library of what `rt ci` has proved in a repository: `archive.sh TOP NAME ARCHIVE`. One check proves the crate over the
# libraries that `rt ci` has left there. Of what it proved LLVM makes ARCHIVE, and Rattle's own compiler ARCHIVE.by-rattle. ARCHIVE.bc is
# LLVM's module, of which `library/wasm.sh` makes a WebAssembly module.
kit=$(dirname "$(dirname "$(readlink -f "$(command -v rt)")")")
name=$2
archive=$3
cd "$1/crates/$name" || exit
work=$(mktemp -d) || exit
trap 'rm -rf "$work"' EXIT

set -- --crate-name "$name" src/lib.rt --crate-type staticlib --links "$name=" --antt-project "$kit/rattle/logic/antt-project.json"
for crate in std $(sed -n "s/^$name staticlib *://p" ../../crates.txt); do
    built=../$crate/out/rlib
    [ -d "../$crate" ] || built=$kit/rlibs
    set -- "$@" --extern "$crate=$built/$crate.rlib"
done
for built in "$kit/rlibs" ../*/out/rlib; do
    set -- "$@" -L "dependency=$built"
done

# Runs the compiler, and shows what it says where it fails.
compile() {
    "$kit/bin/rattle" "$@" >"$work/log" 2>&1 || { tail -n 20 "$work/log" >&2; exit 1; }
}

# A toolchain whose clang also copies the module that it compiles.
mkdir -p "$work/toolchain/bin" && ln -s "$kit/toolchain/lib" "$work/toolchain/lib" && ln -s "$kit"/toolchain/bin/* "$work/toolchain/bin" || exit
rm "$work/toolchain/bin/clang"
cat >"$work/toolchain/bin/clang" <<END
#!/bin/sh
for word in "\$@"; do case \$word in *.bc) cp "\$word" "$work/module.bc" ;; esac; done
exec "$kit/toolchain/bin/clang" "\$@"
END
chmod +x "$work/toolchain/bin/clang" || exit

compile check "$@" --logic-built "$kit/logic_built" --jobs 2 -o "$work/checked"
set -- "$@" --crate-checked "$work/checked" --toolchain
compile build "$@" "$kit/toolchain" --backend rattle -o "$archive.by-rattle"
compile build "$@" "$work/toolchain" --backend llvm -o "$archive"
cp "$work/module.bc" "$archive.bc"
