import json
import random
import subprocess
import sys

from editor import Editor

PROGRAM = sys.argv[1]


def raw(said: bytes) -> str:
    """The status and the errors of a server that reads these bytes."""
    ran = subprocess.run([PROGRAM, "lsp"], input=said, capture_output=True, timeout=60)
    return f"{ran.returncode} {ran.stderr.decode().strip()} {len(ran.stdout) > 0}"


def framed(body: bytes) -> bytes:
    return b"Content-Length: %d\r\n\r\n" % len(body) + body


exit_message = framed(b'{"jsonrpc":"2.0","method":"exit"}')
print("nothing:", raw(b""))
print("exit without shutdown:", raw(exit_message))
print("no length:", raw(b"Content-Type: x\r\n\r\n{}"))
print("a length that is no number:", raw(b"Content-Length: -5\r\n\r\n{}"))
print("a length too large:", raw(b"Content-Length: 99999999999\r\n\r\n{}"))
print("an endless line:", raw(b"x" * 1_000_000))
print("a cut message:", raw(b"Content-Length: 50\r\n\r\n{}"))
print("small letters and another header:", raw(b"content-type: y\r\ncontent-length: 2\r\n\r\n{}" + exit_message))

editor = Editor(PROGRAM)
for body in (b"", b"nonsense", b"[1,2", b'"text"', b"[]", b'{"id":', b"\xff\xfe", b'{"id":null}', b'{"id":{"a":1},"method":5}'):
    editor.send_bytes(body)
print("no JSON, no method:", editor.request("initialize")["serverInfo"])
deep = b"[" * 100_000 + b"]" * 100_000
editor.send_bytes(deep)
uri = "file:///a.asm"
text = "routine f public budget 1\n\U0001f600\U0001f600 RET\r\n"
editor.open(uri, text)
for line, character in ((0, 10**6), (10**6, 0), (1, 1), (1, 3), (2**32, 2**32), (-1, -1), (1.5, 2)):
    for method in ("hover", "definition", "references", "completion", "rename"):
        editor.at(method, uri, line, character, newName="x")
for broken in ({}, {"textDocument": 5}, {"textDocument": {"uri": 5}}, {"textDocument": {"uri": uri}, "contentChanges": []}):
    editor.notify("textDocument/didChange", **broken)
    editor.notify("textDocument/didOpen", **broken)
for count in range(300):
    found = editor.open(f"file:///{count}.asm", "x")
print("the last of more documents than may be open:", found)
editor.open("file:///large.asm", "a" * 1_100_000)
print("a text that is too long:", editor.published["file:///large.asm"])
chance = random.Random(1)
words = ["routine", "f", "public", "budget", "9", "LDI", "w0", "w9", "5", "x:", "JMP", "x", "CALL", "f", "RET", ";", "\n", "\n", " "]
for _ in range(200):
    text = "".join(chance.choice(words) + chance.choice([" ", "\n"]) for _ in range(chance.randrange(60)))
    found = editor.change(uri, text)
    for finding in found:
        json.dumps(finding)
    span = {"start": {"line": 0, "character": 0}, "end": {"line": 99, "character": 0}}
    editor.request("textDocument/codeAction", textDocument={"uri": uri}, range=span)
    editor.at("hover", uri, chance.randrange(9), chance.randrange(9))
print("status", editor.end())
pieces = Editor(PROGRAM)
message = json.dumps({"jsonrpc": "2.0", "id": 1, "method": "initialize", "params": {}}).encode()
for byte in b"Content-Length: %d\r\n\r\n" % len(message) + message:
    pieces.server.stdin.write(bytes([byte]))
    pieces.server.stdin.flush()
print("in pieces:", pieces.read()["id"], pieces.end())
