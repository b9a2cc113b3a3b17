# The power is cut 40 times while the program commits on ext4, xfs and btrfs: the file opens, and has the state of the last commit that was
# done or a later one that was begun. A program that syncs nothing loses what it wrote, so the cuts are cuts.
"$top/tests/power/run" 40 script --program "$1" || exit
"$top/tests/power/run" 8 ext4 no_sync --controls --program "$1" | grep -c older
