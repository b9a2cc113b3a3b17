"$1" check - <"$top"
