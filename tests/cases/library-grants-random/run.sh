# 2,000 random routines under random grants: one that is loaded changes only what was granted, of the VM file, of its blocks in memory, and of blocks
# of memory, which the host has locked or not; one that is not loaded has an effect that was not granted.
. "$top/tests/with_library.sh"
TAKHVOI_LIBRARY=$folder/libtakhvoi.so
PYTHONPATH=$top/bindings/python
export TAKHVOI_LIBRARY PYTHONPATH
python3 -B "$top/tests/random_loads.py" 2000 2>/dev/null
