"""Opens each text, and says what is found in it, which edits are offered, and what is found after each of them."""

import sys

from editor import Editor, edited

# Texts with the reason for what is offered.
TEXTS = {
    # Any index may be passed, and x is a label to RET.
    "index": """routine pick budget 9
        in s0=mem p0=s0:8
        out s0=mem
        LDXB w1 p0 w0
        OUT w1 x
x:      RET
""",
    # The block has to be unlocked before the return, so u and not e. A caller from outside may give a bound too.
    "cleanup": """routine pick public budget 12
        MLOCK s0 w0 e
        DEREF s0 p0 w1 8 u
        LDXB w3 p0 w2           ; w2 is any word
        OUT w3 u
u:      MUNLOCK s0
e:      RET
""",
    # No label leads to RET, so CHK has nowhere to go.
    "no label": """routine pick budget 9
        in s0=mem p0=s0:8
        LDXB w1 p0 w0
        MUNLOCK s0
        RET
""",
    # From the label before it, the loop comes to CHK too. The loop changes w2, so a bound at the start is not enough.
    "loop": """routine sum public budget 60
        MLOCK s0 w0 e
        DEREF s0 p0 w1 8 u
        SETK k0 5
        LDI w2 0
        LDI w4 1
again:  LDXB w3 p0 w2
        OUT w3 u
        ADD w2 w2 w4
        LOOP k0 again
u:      MUNLOCK s0
e:      RET
""",
    # CHK takes a step more than the budget has. That is another finding, with its own edit.
    "budget": """routine pick budget 3
        in s0=mem p0=s0:8
        out s0=mem
        LDXB w1 p0 w0
        OUT w1 x
x:      RET
""",
    # Both are required: w5 is bounded, and the block marked.
    "two": """routine few budget 9
        in w5<=9 s1=vm!
        out s1=vm
        OUT w5 x
x:      RET
routine many public budget 60
        VLOCK s1 w0 e
        CALL few
u:      VUNLOCK s1
e:      RET
""",
    # SNE tells the slots apart.
    "apart": """routine swap budget 9
        in s0=mem s1=mem s0#s1
        out s0=mem s1=mem
        RET
routine main public budget 60
        MLOCK s0 w0 e
        MLOCK s1 w1 d
        CALL swap
u:      MUNLOCK s1
d:      MUNLOCK s0
e:      RET
""",
    # A jump to the label has to mark the block too.
    "mark": """routine set budget 9
in      s0=vm w1<=9
out     s0=vm
        DEREF s0 p0 w1 2 x
again:  STW w2 p0 0
x:      RET
""",
    # The item replaces that of the same pointer, and the comment stays.
    "short": """routine third budget 9
        in s0=mem p1=s0:6       ; the fields
        out s0=mem
        LDW w1 p1 6
        OUT w1 x
x:      RET
""",
    # The caller has only 6 bytes, so the refusal would move to its CALL.
    "short of a caller": """routine third budget 9
        in s0=mem p1=s0:6
        out s0=mem
        LDW w1 p1 6
        OUT w1 x
x:      RET
routine both budget 30
        in s0=mem
        out s0=mem
        DEREF s0 p1 w0 6 y
        CALL third
y:      RET
""",
    # The called routine leaves w2 as it was.
    "forgets": """routine say budget 9
        in s0=mem
        out s0=mem
        OUT w1 x
x:      RET
routine main public budget 60
        MLOCK s0 w1 e
        CHK w2 7 u
        CALL say
        DEREF s0 p0 w3 8 u
        LDXB w1 p0 w2
        OUT w1 u
u:      MUNLOCK s0
e:      RET
""",
    # The called routine sets w2, so its lines cannot say the bound.
    "forgets what it sets": """routine say budget 9
        in s0=mem
        out s0=mem
        LSIZE s0 w2 w1 x
x:      RET
routine main public budget 60
        MLOCK s0 w1 e
        CHK w2 7 u
        CALL say
        DEREF s0 p0 w3 8 u
        LDXB w1 p0 w2
        OUT w1 u
u:      MUNLOCK s0
e:      RET
""",
    # MUNLOCK tells which kind of block the slot has.
    "unlocks": """routine drop budget 9
        MUNLOCK s0
        RET
""",
    # A public routine begins with empty or borrowed slots, and unlocks neither.
    "unlocks for strangers": """routine drop public budget 9
        MUNLOCK s0
        RET
""",
    # The block is still locked at the return, so both lines say it.
    "reads": """routine size budget 9
        LSIZE s0 w1 w0 x
        OUT w1 x
x:      RET
""",
    # Both loads count: the last one requires 4 bytes.
    "pointer": """routine first budget 9
        in s1=mem
        out s1=mem
        LDW w1 p0 0
        LDW w2 p0 2
        OUT w1 x
x:      RET
""",
    # No slot has a block into which the pointer may lead.
    "pointer into nothing": """routine first budget 9
        LDW w1 p0 0
        OUT w1 x
x:      RET
""",
    # The pointer says that the slot has some block, which is still locked at the return.
    "slot of a pointer": """routine get budget 9
        in p0=s0:8
        LDB w1 p0 0
        OUT w1 x
x:      RET
""",
    # The called routine unlocks the block of its caller.
    "away": """routine away budget 9
        MUNLOCK s0
        RET
routine main public budget 40
        MLOCK s0 w1 e
        CALL away
e:      RET
""",
    # Each way to RET is this one, so CHK has nowhere to go, and the sum has no bound at the start.
    "returns": """routine low budget 9
        out w0<=1
        ADD w0 w0 w1
        RET
""",
}


def said(found: list) -> str:
    return ", ".join(f"{finding.get('code')} at {finding['range']['start']['line'] + 1}" for finding in found) or "nothing"


def actions(editor: Editor, uri: str) -> list:
    span = {"start": {"line": 0, "character": 0}, "end": {"line": 99, "character": 0}}
    return editor.request("textDocument/codeAction", textDocument={"uri": uri}, range=span, context={"diagnostics": []})


def look(editor: Editor, name: str, text: str, ends: str) -> None:
    """Opens a text, and makes each edit that is offered."""
    uri = f"file:///{name.replace(' ', '-')}.asm"
    text = text.replace("\n", ends)
    print(f"{name}: {said(editor.open(uri, text))}")
    for action in actions(editor, uri):
        after = edited(text, action["edit"]["changes"][uri])
        print(f"  {action['title']}: {said(editor.change(uri, after))}")
        if name in ("cleanup", "loop", "short", "reads", "two"):
            print("".join(f"    {line}\n" for line in after.splitlines() if line not in text.splitlines()), end="")
    editor.change(uri, text)


editor = Editor(sys.argv[1])
editor.request("initialize", capabilities={})
for name, text in TEXTS.items():
    look(editor, name, text, "\n")
look(editor, "index", TEXTS["index"], "\r\n")
print("status", editor.end())
