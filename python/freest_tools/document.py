"""A text that is open in an editor, and its positions as the Language Server Protocol counts them."""
import bisect
import re

from . import names, program, source

class Document:
    """A text that is open in the editor. A position of the editor's is a line, and a number of units of UTF-16 in
    it."""

    def __init__(self, opened):
        self.uri, self.version = opened["uri"], opened.get("version")
        self.command = program.command_of(self.uri)
        self.put(opened["text"])

    def put(self, text):
        # (half of a character stands for none)
        self.text = text.encode("utf-16-le", "surrogatepass").decode("utf-16-le", "replace")
        self.lines = [0, *(it.end() for it in re.finditer("\r\n?|\n", self.text))]
        self.names_of_text = self.faults = None

    def change(self, change):
        if "range" in change:
            start, end = (self.offset(change["range"][it]) for it in ("start", "end"))
            self.put(self.text[:start] + change["text"] + self.text[max(start, end) :])
        else:
            self.put(change["text"])

    def offset(self, position):
        line, units = position["line"], position["character"]
        if min(line, units) < 0:
            raise ValueError("a position counts from 0")
        begin, end = [*self.lines[line : line + 2], len(self.text), len(self.text)][:2]
        inside = self.text[begin:end].rstrip("\r\n").encode("utf-16-le")
        return begin + len(inside[: 2 * units].decode("utf-16-le", "ignore"))

    def position(self, offset):
        line = bisect.bisect_right(self.lines, offset) - 1
        return {"line": line, "character": len(self.text[self.lines[line] : offset].encode("utf-16-le")) // 2}

    def range(self, start, end):
        return {"start": self.position(start), "end": self.position(end)}

    def token_range(self, offset):
        """Returns the range of the token at an offset, or that of the last character at the end of the text."""
        found = source.TOKEN.match(self.text, offset)
        return self.range(*found.span()) if found else self.range(max(offset - 1, 0), offset)

    def place(self, params):
        return self.names().at(self.offset(params["position"]))

    def location(self, place):
        return {"uri": self.uri, "range": self.range(place.start, place.end)}

    def names(self):
        if not self.names_of_text:
            self.names_of_text = names.Names("" if self.command == "audit" else self.text, self.command == "equiv")
        return self.names_of_text

    def edits(self, edits):
        """Returns what makes these edits, each a start, an end and a new text."""
        return {
            "changes": {self.uri: [{"range": self.range(start, end), "newText": text} for start, end, text in edits]}
        }
