# ./geos with the kit's own `rt`, on a small program in the place of `geos`: what it prints and says comes as it is, and an output past the
# limit of an unproved run is an error in one line.
folder=$(mktemp -d)
trap 'rm -rf "$folder"' EXIT
cp -R "$top/geos" "$top/build" "$top/tools" "$top/HANDLES" "$folder" && cd "$folder" && mkdir -p .git crates/geos/src || exit
echo 'geos:' >crates.txt
cat >crates/geos/src/main.rt <<'PROGRAM'
//! Prints the lines of the standard input, and says so.
#![tactic(auto)]
use std::io;
fn main(rt: HostRuntime) -> io::Result<()> {
    for line in rt.lines(rt.alloc()) {
        println!(rt; "{}", line?.as_str())?;
    }
    eprintln!(rt; "geos: that is all")?;
    Ok(())
}
PROGRAM
said() {
    sed 's/about [0-9]* minutes)/about N minutes)/' said
}
printf 'one\ntwo\n' | ./geos 2>said
echo "status $?" && said
awk 'BEGIN { for (i = 0; i < 40000; i++) print "thirty characters and no more" }' | ./geos >printed 2>said
echo "status $?, $(wc -c <printed) bytes" && said | tail -n 1
ls -A crates/geos
