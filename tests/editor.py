"""Talks to `geos lsp` as an editor does.

A message is written with its header, and answers are read until the one with the id of the request, so a test never waits for time.
"""

import json
import subprocess


class Editor:
    """An editor with one server."""

    def __init__(self, program: str) -> None:
        self.server = subprocess.Popen([program, "lsp"], stdin=subprocess.PIPE, stdout=subprocess.PIPE)
        self.ids = 0
        self.published: dict[str, list] = {}

    def send(self, message: object) -> None:
        self.send_bytes(json.dumps(message).encode())

    def send_bytes(self, body: bytes) -> None:
        self.server.stdin.write(b"Content-Length: %d\r\n\r\n" % len(body) + body)
        self.server.stdin.flush()

    def read(self) -> dict:
        """The next message of the server."""
        length = 0
        while line := self.server.stdout.readline().strip():
            name, value = line.split(b":")
            if name.lower() == b"content-length":
                length = int(value)
        return json.loads(self.server.stdout.read(length))

    def notify(self, method: str, **params: object) -> None:
        self.send({"jsonrpc": "2.0", "method": method, "params": params})

    def request(self, method: str, **params: object) -> object:
        """The result of a request, or its error."""
        self.ids += 1
        self.send({"jsonrpc": "2.0", "id": self.ids, "method": method, "params": params})
        while True:
            answer = self.read()
            if answer.get("id") == self.ids:
                return answer["result"] if "result" in answer else answer["error"]
            self.note(answer)

    def note(self, message: dict) -> None:
        if message.get("method") == "textDocument/publishDiagnostics":
            self.published[message["params"]["uri"]] = message["params"]["diagnostics"]

    def open(self, uri: str, text: str) -> list:
        """What the server finds in a document."""
        self.notify("textDocument/didOpen", textDocument={"uri": uri, "languageId": "geos", "version": 1, "text": text})
        return self.awaited(uri)

    def change(self, uri: str, text: str) -> list:
        self.notify("textDocument/didChange", textDocument={"uri": uri, "version": 2}, contentChanges=[{"text": text}])
        return self.awaited(uri)

    def awaited(self, uri: str) -> list:
        self.published.pop(uri, None)
        while uri not in self.published:
            self.note(self.read())
        return self.published[uri]

    def at(self, method: str, uri: str, line: int, character: int, **more: object) -> object:
        """The result of a request about a place, counted from 0."""
        place = {"line": line, "character": character}
        return self.request(f"textDocument/{method}", textDocument={"uri": uri}, position=place, **more)

    def end(self) -> int:
        """Ends the server as the protocol has it. Its status."""
        self.request("shutdown")
        self.notify("exit")
        return self.server.wait(10)


def place(span: dict) -> str:
    """A range as LINE:COLUMN-COLUMN, or as two places, counted from 0."""
    start, end = span["start"], span["end"]
    if start["line"] == end["line"]:
        return f"{start['line']}:{start['character']}-{end['character']}"
    return f"{start['line']}:{start['character']}-{end['line']}:{end['character']}"


def edited(text: str, edits: list) -> str:
    """A text, in which a column is a byte, after edits of whole places."""
    lines = text.split("\n")
    for edit in sorted(edits, key=lambda edit: edit["range"]["start"]["line"], reverse=True):
        start, end = edit["range"]["start"], edit["range"]["end"]
        before = lines[start["line"]][: start["character"]]
        after = lines[end["line"]][end["character"] :] if end["line"] < len(lines) else ""
        lines[start["line"] : end["line"] + 1] = [before + edit["newText"] + after]
    return "\n".join(lines)
