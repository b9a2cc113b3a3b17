# Ten routines of strangers, each accepted by the verifier and public in a text of its own: each is refused if one effect is not granted, and
# does its worst if all are. `--most-steps` refuses a budget. At the end it is shown what grants leave.
export LC_ALL=C
folder=$(mktemp -d)
trap 'rm -rf "$folder"' EXIT
program=$(readlink -f "$1")
cd "$folder" || exit 1
"$program" new file.vm
printf 'call put 77\ncall put 8\nupdate\n' | "$program" call "$top/tests/cases/script-lends-blocks/lend.asm" --file file.vm
# routine NAME: the text on the standard input
routine() {
    cat >"$1.asm"
}
# denied GRANTS NAME: what is said, where the file stays as it is
denied() {
    cp file.vm before.vm
    "$program" call "$2.asm" --file file.vm --update --grant "$1" "$2" 2>&1
    echo "status $?"
    cmp file.vm before.vm
}
# granted GRANTS NAME WORD..: what is printed, and the status if it is not 0
granted() {
    grants=$1
    name=$2
    shift 2
    "$program" call "$name.asm" --file file.vm --update --grant "$grants" "$name" "$@" || echo "status $?"
}

routine speaks <<'END'
routine speaks public budget 9
    OUT w0 e
e:  RET
END
denied none speaks
granted output speaks 7

routine spies <<'END'
routine spies public budget 9
    in s0=vm@
    out s0=vm@
    LDI w1 16
    DEREF s0 p0 w1 2 e
    LDW w2 p0 0
    OUT w2 e
e:  RET
END
denied output spies
granted output,reads-s0 spies @1

routine defaces <<'END'
routine defaces public budget 9
    in s0=vm@
    out s0=vm@
    VDIRTY s0
    LDI w1 16
    DEREF s0 p0 w1 2 e
    STW w0 p0 0
e:  RET
END
denied reads-s0 defaces
granted reads-s0,changes-s0 defaces 9 @2
"$program" get file.vm 2 16 | xxd -p

routine hoards <<'END'
routine hoards public budget 99
    SETK k0 3
a:  MNEW s0 w1 e
    MUNLOCK s0
    LOOP k0 a
e:  RET
END
denied none hoards
granted memory hoards

routine picks <<'END'
routine picks public budget 9
    LDI w1 1
    MLOCK s0 w1 e
    MUNLOCK s0
e:  RET
END
denied memory picks
granted memory,locks-by-handle picks

routine snoops <<'END'
routine snoops public budget 19
    LDI w1 2
    VLOCK s0 w1 e
    LDI w1 16
    DEREF s0 p0 w1 2 u
    LDW w2 p0 0
    OUT w2 u
u:  VUNLOCK s0
e:  RET
END
denied output snoops
granted output,reads-file snoops

routine squats <<'END'
routine squats public budget 9
    LDI w1 6
    VNEW s0 w2 w1 e
    VUNLOCK s0
e:  RET
END
denied none squats
granted changes-file squats

routine maps <<'END'
routine maps public budget 9
    LDI w1 2
    VSETMAP w1 e
e:  RET
END
denied none maps
granted map maps
"$program" dump file.vm

routine resells <<'END'
routine keeps budget 9
    VSAVE e
e:  RET
routine resells public budget 19
    CALL keeps
    RET
END
denied none resells
granted commits resells
granted changes-file squats
"$program" dump file.vm

routine undoes <<'END'
routine undoes public budget 9
    VREVERT e
e:  RET
END
denied changes-file,commits undoes
denied map,commits undoes
denied changes-file,map undoes
granted changes-file,map,commits undoes
"$program" dump file.vm

# most N WORD..: what a call comes to, if no budget may be above N
most() {
    most=$1
    shift
    "$program" "$@" --most-steps "$most" 2>&1
    echo "status $?"
}
echo "budgets:"
most 98 call hoards.asm hoards
most 99 call hoards.asm hoards
most 0 call resells.asm resells --grant none
most 18 call resells.asm resells --grant commits
most 18 call resells.asm keeps --grant commits
echo 'call keeps' >script
most 18 run resells.asm file.vm script
echo 'call resells' >script
most 19 run resells.asm file.vm script
most 18 call resells.asm <script

echo "what grants leave:"
"$program" new left.vm --area 4096
printf 'call setup\nsave\n' | "$program" call "$top/tests/hostile/host.asm" --file left.vm
# A lent block is read by its handle.
routine turns <<'END'
routine turns public budget 19
    in s0=vm@
    out s0=vm@
    LDI w1 1
    VLOCK s1 w1 e
    LDI w1 16
    DEREF s1 p1 w1 2 u
    LDW w2 p1 0
    OUT w2 u
u:  VUNLOCK s1
e:  RET
END
"$program" call turns.asm --file left.vm --grant output,reads-file turns @1
# The map item is freed, and is still named.
"$program" call "$top/tests/hostile/drops_item.asm" --file left.vm --update --grant changes-file drops_item @1
"$program" dump left.vm | head -n 5
# A lent block grows so far that the file has no room for a commit.
routine swells <<'END'
routine swells public budget 9
    in s0=vm@
    out s0=vm@
    LDI w1 16
    LDI w2 60000
    VDIRTY s0
    LREALLOC s0 w1 w2 e
e:  RET
END
"$program" call swells.asm --file left.vm --update --grant changes-s0 swells @1
echo "status $?"
