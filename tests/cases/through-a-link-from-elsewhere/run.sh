folder=$(mktemp -d)
trap 'rm -rf "$folder"' EXIT
ln -s "$top/geos" "$folder/program"
cd / && "$folder/program"
