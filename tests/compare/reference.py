"""What the reference program answers, computed in this process."""

import os
import sys

# The version of the reference program that does what this program is to do, and no more.
VERSION = 17
# The statuses in which a text was asked for, and the status where it could not be written.
WANTED_TEXT = (0, 1)
WRITE_FAULT = 5


class Reference:
    def __init__(self, path):
        """PATH is the reference program, whose folder has its parts."""
        sys.path.insert(0, os.path.dirname(os.path.abspath(path)))
        from cdref import cli
        self.cli = cli

    def answer(self, words, data):
        """The status and the bytes for a command line, and a document on standard input (None: it cannot be read)."""
        try:
            words = [os.fsencode(word).decode() for word in words]
        except UnicodeDecodeError:
            return self.cli.NO_WORDS, b''

        def read(limit):
            if data is None:
                raise OSError
            return data[:limit]
        status, text = self.cli.carry_out(words, read, VERSION)
        return status, text.encode()
