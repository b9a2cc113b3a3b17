sh "$(dirname "$0")/../../least_budgets.sh" "$1" "$(dirname "$0")"
