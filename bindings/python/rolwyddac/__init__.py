"""Calls of the proved tiled sweep engine.

    import rolwyddac

    # a line of four cells in tiles of two on two processors; each cell adds the one before it
    recipe = rolwyddac.Fields().dimension(4, 2, 2).dimension(1, 1, 0).distance((1, 0), 1).close(0, 0)
    run = rolwyddac.Run(recipe, rolwyddac.DIRECT, [1, 1, 1, 1])
    run.finish()
    print(run.collect())

`Run` owns the areas of one run, `Rig` those of two offices on the same processors, `Board` those of one processor that shares no
memory with the others, `PartBoard` the part of one that has memory for nothing else. Grids come as numpy arrays of the recipe's
dimensions, or as lists of lists where numpy is not installed; sources may be either. A refusal is an exception named by its
term: `rolwyddac.Waiting`, `rolwyddac.NoMail`, all below `rolwyddac.Refused`.

Threads may share an object that owns areas: each has a lock, and its calls go one at a time. Copies and pickles of one share nothing
with it. What is lent by the caller, a grid to collect into or the areas of `rolwyddac.calls`, is lent to one call at a time.

`rolwyddac.calls` has the exported functions with their own names and parameters.
"""

from __future__ import annotations

from . import calls
from .areas import Areas, PartAreas
from .boards import Board, PartBoard
from .calls import REFUSALS, VERSION as __version__, Progress, Refused, Sizes, flattened, sizes, term, text, version
from .grids import Sounding, chart, soundings, sweep
from .kinds import DIRECT, INDIRECT, numpy
from .plan import (Awaited, Message, PartRow, PartSizes, Row, Summary, awaited, hops, message, messages, opens, owners,
                   part_messages, part_sizes, part_source, rounds_of, summary)
from .recipe import COMPONENTS, RECORD, Fields, dimensions
from .refusals import (Area, Boards, Closed, Damaged, DirectOnly, Distance, Early, Empty, Engaged, Finished, Hours, LastSpread,
                       Length, NoChart, NoMail, NoSuch, OffTheBox, Ragged, SpreadOrder, Stale, StrayRecord, Tile,
                       Tiles, TooLarge, TooWide, Unfit, Waiting)
from .rig import FREE, Rig
from .run import Run, rounds

__all__ = [
    'COMPONENTS', 'DIRECT', 'FREE', 'INDIRECT', 'RECORD', 'REFUSALS', 'Area', 'Areas', 'Awaited', 'Board', 'Boards', 'Closed',
    'Damaged', 'DirectOnly', 'Distance', 'Early', 'Empty', 'Engaged', 'Fields', 'Finished', 'Hours', 'LastSpread', 'Length', 'Message',
    'NoChart', 'NoMail', 'NoSuch', 'OffTheBox', 'PartAreas', 'PartBoard', 'PartRow', 'PartSizes', 'Progress', 'Ragged',
    'Refused', 'Rig', 'Row', 'Run', 'Sizes', 'Sounding', 'SpreadOrder', 'Stale', 'StrayRecord', 'Summary', 'Tile', 'Tiles', 'TooLarge',
    'TooWide', 'Unfit', 'Waiting', '__version__', 'awaited', 'calls', 'chart', 'dimensions', 'flattened', 'hops', 'message',
    'messages', 'opens', 'owners', 'part_messages', 'part_sizes', 'part_source', 'rounds', 'rounds_of', 'sizes', 'soundings',
    'summary', 'sweep', 'term', 'text', 'version']

# those that are not written down, of a later library
globals().update({refusal.__name__: refusal for refusal in REFUSALS.values()})
