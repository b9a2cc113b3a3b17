sh "$(dirname "$0")/../../assembled.sh" "$1" "$(dirname "$0")"
