"""What ends the look at an input before its time, and where."""

MOST_BYTES, MOST_NAME, MOST_NUMBER = 1048576, 255, 2 ** 63 - 1
MOST_NESTING, MOST_NODES, MOST_LETTERS = 200, 4096, 1048576
STATUSES = {"refused": 1, "undecided": 5, "limit": 8}


class Fault(Exception):
    """`Finding`, `Cause`: a line that begins with a word of STATUSES, the byte that it speaks of, and what it says."""

    def __init__(self, at, phrase, word="refused"):
        super().__init__(at, phrase, word)
        self.at, self.phrase, self.word = at, phrase, word


class OutOfMemory(Exception):
    """Where the documents say that the program gives up for want of memory."""


def too_large(at):
    """`IsTooLargeAt`: a type, or a grammar, that is over its size."""
    return Fault(at, "type size", "limit")
