# An empty file is a text, and one without a routine.
"$1" explain /dev/null
