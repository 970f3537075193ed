"""The command `rolwyddac`: recipes, plans, soundings, charts and runs over the proved calls. docs/COMMAND.md is its reference."""

from __future__ import annotations

from .entry import main

__all__ = ['main']
