"""Errors between a program and the server."""


class Fault(Exception):
    """An error, as one line for a person. The connection can't be used any more."""


class Refused(Fault):
    """A command that the server rejected with a word of the protocol. The connection can still be used.

    `word` is that word, and `why` what it means, if it has a meaning for a person.
    """

    def __init__(self, text, word=None, why=None):
        super().__init__(text)
        self.word, self.why = word, why


def said(fault):
    """Returns the system's message for an error."""
    return getattr(fault, "strerror", None) or str(fault)
