# Images of the examples with numbers changed at random, and random images, are answered as a second reading of images answers them.
trials=$("$top/build" trials) || exit
cd "$top/examples" || exit
python3 -B "$top/tests/changed_images.py" "$trials" 1500 loop.session call.session heap.session records.session
python3 -B "$top/tests/random_images.py" "$trials"
