"""What may come of a question to a store."""


class Unreachable(Exception):
    """The store didn't answer: what was asked may have happened, and may happen yet."""


class NotDone(Unreachable):
    """It didn't happen and never will: it wasn't sent, or the store says so. Another try may do it."""


class Declined(Exception):
    """The store says that it doesn't do it: it is too large, there are no rights, or no room."""


class Anew(Exception):
    """This adapter can't go on, and one that begins anew can: what it needs was trimmed, say, since a newer base stands for it."""


class Broken(Exception):
    """A person has to look: there is no log, it isn't the one that was given, or a rule of PROTOCOL.md was broken."""
