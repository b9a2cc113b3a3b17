# Random routines run, and are played in the model of a page: registers, blocks and output agree at each step.
export LC_ALL=C
python3 -B "$top/tests/page/compare_model.py" "$1" 200 2>/dev/null
