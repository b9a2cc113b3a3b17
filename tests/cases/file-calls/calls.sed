# A line of strace that changes or syncs a file, in words.
s/^[0-9]+ +//
# how the program ended, and what it prints
/^(\+\+\+|---)/d
/^write\([12]</d
# memory that is no file's, or is changed for the program alone
/^mmap\(.*(MAP_PRIVATE|MAP_ANONYMOUS)/d
# files that are opened to read
/^open(at)?\(.*O_RDONLY/d
s/^openat\(.*"(\.\/)?([^"]*)", O_RDWR\|O_CREAT\|O_EXCL\|.*/\2: made/
s/^openat\(.*"([^"]*)", O_RDWR\|O_[A-Z]*\|?O_CLOEXEC.*/\1: opened to write/
s/^pwrite64\([0-9]+<[^>]*\/([^>/]*)>, .*, ([0-9]+), ([0-9]+)\) += .*/\1: write at \3 of \2/
s/^write\([0-9]+<[^>]*\/([^>/]*)>, .*/\1: written/
s/^fchmod\([0-9]+<[^>]*\/([^>/]*)>, .*/\1: mode/
s/^rename(at2?)?\(.*\/([^"/]*)", .*"([^"]*)".*/\3: renamed, from \2/
s/^ftruncate\([0-9]+<[^>]*\/([^>/]*)>, ([0-9]+).*/\1: length \2/
s/^(fsync|fdatasync)\([0-9]+<[^>]*\/([^>/]*(\.vm|-part-0))>.*/\2: \1/
s/^link(at)?\(.*\/([^"/]*)", .*"([^"]*)".*/\3: named, as \2/
s/^unlink(at)?\(.*\/([^"/]*)".*/\2: removed/
s/^(fsync|fdatasync)\([0-9]+<[^>]*\/folder>.*/folder: \1/
