"""The shortest way to each number, as docs/RECIPE.md has it: a change of a small recipe, or the fewest calls.

`D 0.2=0` is recipe D with byte 2 of record 0 set to 0, both counted from 0. Behind a colon stand calls over a source of ones, of which the
last gives the number. The tests hold this table to that page, and each example to the engine.
"""

from __future__ import annotations

from typing import Dict

from .fields import RECORD

_D = '0100040002000200 0000000000000000 0100010001000000 0000000000000000 0200010000000100 0000000000000000 03000000000000000000000000000000'
_S = '0100040002000200 0000000000000000 0100040002000000 0000000000000000 0500010001000000 0000000000000000 ' \
     '0200010000000100 0000000000000000 03000000090000000000000000000000'
RECIPES = {'D': bytes.fromhex(_D), 'S': bytes.fromhex(_S), 'empty': b''}

# in the order in which numbers are tested
SHORTEST: Dict[int, str] = {
    1: 'empty', 2: 'D 3.1=32', 3: 'D 0.2=0', 4: 'D 0.2=128 1.2=129', 18: 'D 2.0=4', 20: 'S 2.6=4', 5: 'D 2.2=0', 6: 'D 0.4=0',
    16: 'D 0.6=0', 17: 'D 1.6=1', 7: 'D 0.6=65', 8: 'D 0.2=0 0.3=4 0.4=1 1.2=2', 21: 'S: indirect', 23: 'D: chart with cell size 0',
    26: 'D: packet of no bytes', 27: 'D: packet of run 1 read for run 0',
    9: 'D: status of 2, fresh', 22: 'D: sounding of cell 4', 10: 'D: fresh, status 0 = 4, turn 0', 25: 'D: fresh, turn 0 at minute 10080',
    11: 'D: fresh, turn 2', 24: 'D: fresh, turn 0 at minute 0', 19: 'D: fresh both, turn 0 of office 0, turn 0 of office 1',
    12: 'D: fresh, turn 1', 13: 'D 0.2=1: fresh, turn 1', 14: 'D: fresh, deliver 0', 15: 'D: fresh, collect'}


def recipe_in(example: str) -> bytes:
    """The bytes of an example's recipe."""
    name, *changes = example.partition(':')[0].split()
    changed = bytearray(RECIPES[name])
    for change in changes:
        place, value = change.split('=')
        record, at = map(int, place.split('.'))
        changed[RECORD * record + at] = int(value)
    return bytes(changed)


def calls_in(example: str) -> str:
    """The calls of an example, empty where the recipe alone gives the number."""
    return example.partition(': ')[2]
