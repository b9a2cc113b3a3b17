folder=$(dirname "$0")
sh "$folder/../../explained.sh" "$1" "$folder/../branch-leaves-routine/stdin"
