# The image of examples/add.session, in either version, with each byte set to each value, and cut at each length, is answered as a second
# reading of images answers it: with the first fault, the first pc and the lowest rule, or the run of its routine.
trials=$("$top/build" trials) || exit
python3 -B "$top/tests/damaged_images.py" "$trials" "$top/examples/add.session"
