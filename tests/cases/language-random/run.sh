# Random sources of the structured language: a compiled one prints what its statements mean, and a refused one is named by line and column.
# So do sources whose tokens were changed.
python3 -B "$top/tests/random_sources.py" "$1" 250 300
