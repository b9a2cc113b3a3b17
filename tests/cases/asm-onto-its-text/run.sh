# The image of a text does not take the place of the text, however that is named. One path for both is a usage fault; other ways to the
# file are found when the image is written.
export LC_ALL=C
folder=$(mktemp -d)
trap 'rm -rf "$folder"' EXIT
cd "$folder" || exit 1
program=$1
cp "$top/examples/add.asm" add.asm
"$program" asm add.asm add.asm 2>said
echo "status $?"
head -n 1 said
ln -s add.asm link.asm
ln add.asm hard.asm
mkdir folder

# onto TEXT IMAGE
onto() {
    "$program" asm "$1" "$2" <add.asm 2>&1
    echo "status $?"
    cmp "$top/examples/add.asm" add.asm && cmp "$top/examples/add.asm" hard.asm && [ -L link.asm ] && echo "the text is as it was"
}

onto add.asm ./add.asm
onto ./add.asm folder/../add.asm
onto add.asm link.asm
onto link.asm add.asm
onto add.asm hard.asm
onto - add.asm
# A text without a fault is asked for first.
echo nonsense >faulty.asm
"$program" asm faulty.asm ./faulty.asm 2>&1
"$program" asm - - <add.asm | "$program" check -
ls -A
