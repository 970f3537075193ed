"""What the page says and what the engine says, held to each other."""

from __future__ import annotations


class Differs(Exception):
    """The page's own reading and the engine differ: there is no page."""


def hold(condition: bool, what: str) -> None:
    """The page goes on only if this is so."""
    if not condition:
        raise Differs('differs from the engine: ' + what)
