# The crate for Rust: its tests and doc tests pass, among them those that must not compile, the routines of tests/hostile do the damage that their
# table says, and its address book prints what those in the other languages do.
. "$top/tests/with_library.sh"
mkdir library bindings && cp takhvoi.h takhvoi_file.h library && cp -R "$top/bindings/rust" bindings || exit
cp "$top/tests/hostile/by_rust.rs" bindings/rust/examples/hostile.rs || exit
TAKHVOI_DIR=$folder
CARGO_TARGET_DIR=$folder/target
export TAKHVOI_DIR CARGO_TARGET_DIR

cd bindings/rust || exit
if ! cargo test --offline --quiet >"$folder/tests" 2>&1 || ! cargo build --offline --quiet --examples >>"$folder/tests" 2>&1; then
    tail -n 40 "$folder/tests"
    exit 1
fi
cd "$folder" || exit

hostile() {
    target/debug/examples/hostile "$@"
}
. "$top/tests/hostile/judge.sh"

book() {
    target/debug/examples/book "$@"
}
. "$top/tests/address_book.sh"
