sh "$(dirname "$0")/../../explained.sh" "$1" "$(dirname "$0")/stdin"
