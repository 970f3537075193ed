"""One self-contained page that shows a recipe, its messages and a recorded run: docs/VIEW.md.

The engine is asked for everything. What the page works out by itself is held to the engine when the page is made; where a word
differs there is a `Differs`, and no page.
"""

from __future__ import annotations

from .differs import Differs
from .page import Shown, page_of, served

__all__ = ['Differs', 'Shown', 'page_of', 'served']
