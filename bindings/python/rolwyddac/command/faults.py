"""What the command ends with: its statuses, and the exceptions that lead to them."""

from __future__ import annotations

DONE, REFUSED, USAGE, FILE = 0, 1, 2, 3

# what a shell adds to the number of the signal that ended a process
BY_SIGNAL = 128


class Fault(Exception):
    """What went wrong, in words for the user; the command ends with its status."""

    status = REFUSED


class Refusal(Fault):
    """What was given is refused: a recipe, a text, soundings; or what should be equal differs."""


class Usage(Fault):
    """The words of the command are at fault, or ask for what this installation has not."""

    status = USAGE


class FileFault(Fault):
    """A file can't be read or written."""

    status = FILE


class Ended(BaseException):
    """A signal asks the process to end; what is half done is cleaned up on the way."""

    def __init__(self, signal_number: int) -> None:
        super().__init__(signal_number)
        self.signal_number = signal_number
