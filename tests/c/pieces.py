"""Captures that come in pieces, for list.py and blocks.py."""

import io

import pcapfile


class Pieces:
    """A stream over bytes in memory that reads at most this many of them, as a socket may."""

    def __init__(self, data, most):
        self._left, self._most = io.BytesIO(data), most

    def read(self, count):
        return self._left.read(min(count, self._most))

    def close(self):
        self._left.close()


def opening(words):
    """Returns a call that opens a capture over its bytes as the words ask for: with `-s N` as a stream that reads N bytes at once."""
    if words[:1] == ["-s"]:
        return lambda data: pcapfile.open(Pieces(data, int(words[1])))
    return pcapfile.parse
