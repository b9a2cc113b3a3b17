# Routines of strangers, by `geos call`: each is refused under the grants of its row of the table, before anything runs, and does the damage of this
# row if everything is granted. The cases of the library have the same table.
folder=$(mktemp -d)
trap 'rm -rf "$folder"' EXIT
program=$(readlink -f "$1")
cd "$folder" || exit
hostile() {
    python3 -B "$top/tests/hostile/by_geos.py" "$program" "$@"
}
. "$top/tests/hostile/judge.sh"
