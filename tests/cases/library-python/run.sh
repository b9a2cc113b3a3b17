# The library for Python: its tests pass, the routines of tests/hostile do the damage that their table says, and its address book prints what those
# in the other languages do.
. "$top/tests/with_library.sh"
TAKHVOI_LIBRARY=$folder/libtakhvoi.so
TAKHVOI_HEADER=$folder/takhvoi.h
PYTHONDONTWRITEBYTECODE=1
PYTHONPATH=$top/bindings/python
export TAKHVOI_LIBRARY TAKHVOI_HEADER PYTHONDONTWRITEBYTECODE PYTHONPATH

python3 -m unittest test_takhvoi >tests 2>&1 || cat tests

hostile() {
    python3 "$top/tests/hostile/by_python.py" "$@"
}
. "$top/tests/hostile/judge.sh"

book() {
    python3 "$top/bindings/python/book.py" "$@"
}
. "$top/tests/address_book.sh"
