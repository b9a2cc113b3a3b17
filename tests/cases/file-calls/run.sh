# The calls of the system by which a command changes files or syncs them, in their order, with offset and length of what is written: a
# commit writes the area that is not selected, syncs, writes the selector and syncs. What makes no commit writes nothing, and `run` alone
# opens a file to write. `new`, `copy`, `asm` and `budget` sync the file and then the folder.
export LC_ALL=C
case=$(dirname "$(readlink -f "$0")")
top_folder=$(mktemp -d)
trap 'rm -rf "$top_folder"' EXIT
mkdir "$top_folder/folder" && cd "$top_folder/folder" || exit 1
program=$1
"$program" asm "$top/tests/cases/asm-file-block/kept.asm" kept.image
strace -o trace true 2>/dev/null || {
    echo "the system lets no program look at another's calls" >&2
    exit 77
}

changing="?creat,?open,openat,?openat2,write,writev,pwrite64,pwritev,?pwritev2,ftruncate,truncate,fallocate,copy_file_range,sendfile,splice"
changing="$changing,mmap,msync,fsync,fdatasync,sync,syncfs,?sync_file_range,?rename,?renameat,renameat2,?link,linkat,?symlink,symlinkat"
changing="$changing,?unlink,unlinkat,?mkdir,mkdirat,?chmod,fchmod,fchmodat,?utime,?utimes,utimensat"

# calls COMMAND..: runs the program without what it prints
calls() {
    strace -f -y -o trace -e "trace=$changing" "$program" "$@" >output || echo "status $?"
    sed -E -f "$case/calls.sed" trace
}

# ran COMMANDS: a run of a script
ran() {
    echo "$1:"
    echo "$1" | tr , '\n' >script
    calls run kept.image file.vm script
}

echo "new:"
calls new file.vm --area 1024
ran "call put 1, update"
ran "call put 2, update"
ran "call put 3, save"
ran "call put 4, revert"
ran "revert"
ran "call get"
ran "call put 5"
ran "call put 5, update, save"
echo "dump:"
calls dump file.vm
echo "map:"
calls map file.vm
echo "copy:"
calls copy file.vm copy.vm
echo "asm:"
calls asm "$top/examples/add.asm" image
echo "asm onto it:"
calls asm "$top/examples/add.asm" image
echo "budget:"
calls budget "$top/examples/add.asm" text
