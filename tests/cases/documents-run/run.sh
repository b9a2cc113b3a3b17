# The commands of these pages print what the pages say, and what they quote is in the files.
python3 -B "$top/tests/fences.py" "$1" "$top" README.md examples/README.md docs/TUTORIAL.md docs/AUTHORS.md docs/LANGUAGE.md docs/FORMATS.md docs/PROOFS.md docs/GRANTS.md docs/ERRORS.md docs/EMBEDDING.md docs/FROM_GOC.md
