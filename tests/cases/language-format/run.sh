# `fmt` lays out sources of the structured language: formatting twice changes nothing, and no source of the repository gets another image.
export LC_ALL=C
folder=$(mktemp -d)
trap 'rm -rf "$folder"' EXIT
program=$(readlink -f "$1")
cd "$folder" || exit 1

printf '\n\n// first\r\nuse   "std.tkv" ;\nconst A=0x10 ;struct S{a:word,b :byte [ 8 ]}\n\n\n\n' >odd.tkv
cat >>odd.tkv <<'END'
pub  fn f ( n<=9,b : vm ){ // of f
let c=' ';let d = '\'' ;
        if !(n==3||c!=d)&&n<5{out( n+1 )?;}
   else if (n & 1) == 1 {
      // an odd number
  for i in 0 .. n step 2{
out(i,
i+1,
(i +2))?; }
}
else { }


    let long = n +
n * 2;
  vlock( n )?as q{let p=deref(q,16,S)?;p.b[ 1 ]=p . b[0] ;p.b = "a \"  b";}
}   else{fail  20;}   // the end
fn g(p:S in b)->m?{return p.a;}
test   "f  (x)"{f(1,1)=>2,3;f(1 , 2)=>refused 1;f(0,1)=>;}
END
"$program" fmt odd.tkv
echo "status $?"
"$program" fmt odd.tkv once.tkv && "$program" fmt once.tkv | cmp - once.tkv && echo "the same again"
"$program" fmt - --language tkv <odd.tkv | cmp - once.tkv && echo "by a pipe"
"$program" fmt odd.tkv odd.tkv 2>&1 | head -n 1
"$program" fmt odd.tkv --in-place && cmp odd.tkv once.tkv && echo "in place"
printf '' >empty.tkv && "$program" fmt empty.tkv | wc -c
printf '\n\n' >empty.tkv && "$program" fmt empty.tkv | wc -c
printf '// only' >comment.tkv && "$program" fmt comment.tkv

for text in "$top"/examples/*.tkv; do
    "$program" fmt "$text" >formatted.tkv && "$program" fmt formatted.tkv | cmp - formatted.tkv || echo "$text changes again"
    "$program" asm "$text" - >before.image 2>before.said
    "$program" asm formatted.tkv - >after.image 2>after.said
    cmp before.said after.said && cmp before.image after.image || echo "$text has another image"
done

echo "faults:"
# faulty TEXT: what `fmt --in-place` says of this source, which stays as it is
faulty() {
    printf '%s' "$1" >faulty.tkv && cp faulty.tkv was.tkv
    "$program" fmt faulty.tkv --in-place 2>&1
    echo "status $?"
    cmp faulty.tkv was.tkv
}
faulty 'fn f() { x = "a
"; }'
faulty 'fn f() { a # b; }'
faulty 'fn f() { if a ! = b {} }'
head -c 1048577 /dev/zero | tr '\0' ' ' >long.tkv && "$program" fmt long.tkv 2>&1
# 1 MiB of braces, each on a line: the layout would be too long.
yes '{' | head -c 1048576 >deep.tkv && "$program" fmt deep.tkv 2>&1
yes '{ a = b + 1; }' | head -c 1048575 >many.tkv && "$program" fmt many.tkv | cmp - many.tkv && echo "1 MiB"
