import sys

from editor import Editor, edited, place

FAULTY = """routine f public budget x
        ldi w0 5
        JMP nowhere
"""
STALE = """routine grow budget 9
in      s0=mem
out     s0=mem
        LDI w0 8
        LALLOC s0 w0 w1 x
        DEREF s0 p0 w1 8 x
        LALLOC s0 w0 w2 x
        LDW w3 p0 0             ; p0 may be stale
x:      RET
"""
UNMARKED = """routine set budget 4
in      s0=vm w1<=9
out     s0=vm
        DEREF s0 p0 w1 2 x
        STW w2 p0 0
x:      RET
"""
GOOD = """routine add public budget 3 ; \U0001f600 adds
        ADD w0 w0 w1
     OUT   w0 end
end:    RET
routine twice public budget 5
        CALL add
        RET
"""
SOURCE = """inline fn double(a) -> b {
    return a + a;
}
pub fn main(a) {
    out(double(c))?;
}
"""


def tell(editor: Editor, name: str, found: list) -> None:
    print(f"{name}:")
    for finding in found:
        related = [place(item["location"]["range"]) for item in finding.get("relatedInformation", [])]
        print(" ", place(finding["range"]), finding["severity"], finding.get("code"), finding["message"], *related)


def mend(editor: Editor, uri: str, text: str) -> None:
    """Applies each edit that is offered, and says what is found then."""
    span = {"start": {"line": 0, "character": 0}, "end": {"line": 99, "character": 0}}
    for action in editor.request("textDocument/codeAction", textDocument={"uri": uri}, range=span, context={"diagnostics": []}):
        new = edited(text, action["edit"]["changes"][uri])
        found = editor.change(uri, new)
        print(f"  {action['title']}: {len(found)} left")
    editor.change(uri, text)


editor = Editor(sys.argv[1])
print(sorted(editor.request("initialize", capabilities={})["capabilities"]))
editor.notify("initialized")
for name, text in (("faulty", FAULTY), ("stale", STALE), ("unmarked", UNMARKED), ("good", GOOD)):
    uri = f"file:///{name}.asm"
    tell(editor, name, editor.open(uri, text))
    mend(editor, uri, text)
good = "file:///good.asm"
short = GOOD.replace("budget 5", "budget 1")
tell(editor, "budget", editor.change(good, short))
mend(editor, good, short)
editor.change(good, GOOD)
print("hover:", editor.at("hover", good, 2, 6)["contents"]["value"])
print("hover on a comment:", editor.at("hover", good, 0, 35))
print("definition:", [place(at["range"]) for at in editor.at("definition", good, 5, 14)])
print("references:", [place(at["range"]) for at in editor.at("references", good, 2, 14, context={})])
renamed = editor.at("rename", good, 3, 1, newName="fin")["changes"][good]
print("rename:", [place(edit["range"]) for edit in renamed], editor.at("rename", good, 3, 1, newName="no name"))
outline = editor.request("textDocument/documentSymbol", textDocument={"uri": good})
print("outline:", [(symbol["name"], symbol["kind"], place(symbol["range"])) for symbol in outline])
columns = editor.request("textDocument/formatting", textDocument={"uri": good}, options={})
print("columns:", edited(GOOD, columns).splitlines()[2])
typed = [item["label"] for item in editor.at("completion", good, 1, 0)]
print("completion:", len(typed), typed[:2], typed[-3:])
source = "file:///source.tkv"
tell(editor, "source", editor.open(source, SOURCE))
tell(editor, "mended source", editor.change(source, SOURCE.replace("(c)", "(a)")))
LIBRARY = "use std;\npub fn main(a) { out(mul(a, b))?; }\n"
tell(editor, "library", editor.change(source, LIBRARY))
tell(editor, "mended library", editor.change(source, LIBRARY.replace("b))", "a))")))
tell(editor, "uncalled", editor.change(source, SOURCE.replace("out(double(c))", "out(a)")))
tell(editor, "files", editor.change(source, 'use "other.tkv";\n' + LIBRARY))
editor.change(source, SOURCE)
print("definition:", [place(at["range"]) for at in editor.at("definition", source, 4, 10)])
print("outline:", [symbol["name"] for symbol in editor.request("textDocument/documentSymbol", textDocument={"uri": source})])
loose = "pub fn main(a){\n\n\nout( a )?;}\n"
editor.change(source, loose)
laid_out = editor.request("textDocument/formatting", textDocument={"uri": source}, options={})
print("laid out:", edited(loose, laid_out).splitlines())
editor.change(source, loose.replace("a )", "#"))
print("no word:", editor.request("textDocument/formatting", textDocument={"uri": source}, options={}))
editor.notify("textDocument/didClose", textDocument={"uri": source})
print("closed:", editor.awaited(source), editor.at("hover", source, 0, 0))
print("unknown:", editor.request("textDocument/unknown")["code"])
print("status", editor.end())
