"""Cuts an input that shows a difference down to a small one that still does."""
import time

from trials import texts


class Cutter:
    """`differs` says whether an input, as words and bytes, still shows the difference."""

    def __init__(self, differs, tries=3000, seconds=240):
        self.differs = differs
        self.tries = tries
        self.until = time.monotonic() + seconds

    def still(self, words, pieces):
        self.tries -= 1
        if self.tries < 0 or time.monotonic() > self.until:
            return False
        return self.differs(words, joined(pieces))

    def cut(self, words, data):
        """The smallest words and bytes that were found."""
        pieces = texts.pieces_of(data.decode("utf-8", "surrogateescape"))
        before = None
        while before != (words, pieces):
            before = words, pieces
            pieces = self.shorter(words, pieces)
            pieces = self.without_brackets(words, pieces)
            pieces = self.simpler(words, pieces)
            words = self.fewer_words(words, pieces)
        return words, joined(pieces)

    def shorter(self, words, pieces):
        """Without the runs of pieces that aren't needed, the longest first."""
        length = len(pieces) // 2
        while length > 0:
            start = 0
            while start < len(pieces):
                new = pieces[:start] + pieces[start + length:]
                if len(new) < len(pieces) and self.still(words, new):
                    pieces = new
                else:
                    start += length if length > 6 else 1
            length = length // 2 if length > 6 else length - 1
        return pieces

    def without_brackets(self, words, pieces):
        """Without the pairs of brackets that aren't needed, or with something plain in place of what they enclose."""
        start = 0
        while start < len(pieces):
            end = closing(pieces, start) if pieces[start] in ("(", "{") else None
            news = [] if end is None else [pieces[:start] + ["Skip"] + pieces[end + 1:], pieces[:start] + ["5"] + pieces[end + 1:],
                                           pieces[:start] + pieces[start + 1:end] + pieces[end + 1:]]
            kept = next((new for new in news if len(new) < len(pieces) and self.still(words, new)), None)
            pieces, start = (kept, start) if kept is not None else (pieces, start + 1)
        return pieces

    def simpler(self, words, pieces):
        """With shorter names, numbers and spaces."""
        for old in sorted(set(pieces), key=len, reverse=True):
            for new in shorter_pieces(old):
                if self.still(words, [new if piece == old else piece for piece in pieces]):
                    pieces = [new if piece == old else piece for piece in pieces]
                    break
        return pieces

    def fewer_words(self, words, pieces):
        place = 1
        while place < len(words):
            new = words[:place] + words[place + 1:]
            if self.still(new, pieces):
                words = new
            elif self.still(words[:place] + words[place + 2:], pieces) and place + 1 < len(words):
                words = words[:place] + words[place + 2:]
            else:
                place += 1
        return words


def joined(pieces):
    return "".join(pieces).encode("utf-8", "surrogateescape")


def closing(pieces, start):
    depth = 0
    for place in range(start, len(pieces)):
        depth += (pieces[place] in ("(", "{")) - (pieces[place] in (")", "}"))
        if depth == 0:
            return place
    return None


def shorter_pieces(piece):
    if piece.isspace():
        return [" "] if len(piece) > 1 else []
    if piece.isdigit():
        return [digit for digit in ("0", "1", "2") if digit != piece and len(piece) >= 1][:2]
    if piece[0].isupper() and piece not in ("Skip", "Close", "Wait", "Int", "Bool", "Char", "True", "False"):
        return [letter for letter in "ABC" if len(piece) > 1]
    return [letter for letter in "xyf" if len(piece) > 2 and piece[0].isalpha()]
