"""Holds the two routes of the model to each other and to W-204's words, over drawn recipes and drawn schedules.

    python3 tools/routes.py [RECIPES]    the count of drawn recipes, 60 unless given

For each recipe: the grid of either route is the sequential sweep's under a drawn schedule, in twice tiles plus twice that route's
messages, and not before; a cell goes, for each direction of a direct message that holds it, through as many messages as the
direction has ones, from neighbour to neighbour and lowest dimension first; no message holds a cell that no such way passes. Along a
dimension with one board it goes without a message (W-205).
"""

import sys

import model
import vectors


def drawn_run(encoded, plan, route, source, draw):
    """A run by a drawn schedule to its last step: the steps it took and the grid."""
    areas = model.areas_for(plan, source)
    assert model.fresh(encoded, areas, route) == 0
    steps = 0
    while True:
        events = [(model.turn, b) for b in range(plan.boards)]
        events += [(model.deliver, m) for m in range(len(plan.messages)) if areas.status[m] == 1]
        # events in a drawn order, up to the first that is not refused
        while events:
            call, which = events.pop(draw.below(len(events)))
            if call(encoded, areas, which, route) == 0:
                break
        else:
            break
        steps += 1
        if draw.below(16) == 0 and steps < plan.steps:
            ends = [len(tiles) for tiles in plan.tiles_of]
            assert (model.collect(encoded, areas, route) == 0) == (areas.progress[::3] == ends)
    assert model.collect(encoded, areas, route) == 0
    return steps, areas.grid


def ways(encoded, direct):
    """Every (cell, sending tile, dimension) that W-204's words name: each cell of each direct message, hop by hop."""
    found = set()
    tiles = sorted(set(tuple(i // k for i, k in zip(cell, direct.nest.tiling)) for cell in direct.places))
    number = {tile: t for t, tile in enumerate(tiles)}
    for m, message in enumerate(direct.messages):
        at, hops = list(tiles[message.sender]), 0
        for q, one in enumerate(message.direction):
            if one == 1 and direct.nest.counts[q] > 1:
                found |= set((cell, number[tuple(at)], q) for cell in message.cells)
                hops += 1
            at[q] += one
        assert number[tuple(at)] == message.taker and hops == model.hops(encoded, m)[1] > 0
    return found


def check(encoded, draw):
    """One recipe; gives whether a message is there for forwarded cells alone."""
    direct, indirect = (model.plan_of(encoded, route)[1] for route in (model.DIRECT, model.INDIRECT))
    source = [draw.word() for _ in range(direct.cells)]
    swept = direct.swept(source)
    for plan, route in ((direct, model.DIRECT), (indirect, model.INDIRECT)):
        steps, grid = drawn_run(encoded, plan, route, source, draw)
        assert steps == plan.steps and grid == swept, (encoded.hex(), route)
    held = [(cell, message.sender, message.direction.index(1)) for message in indirect.messages for cell in message.cells]
    assert set(held) == ways(encoded, direct) and len(set(held)) == len(held), encoded.hex()
    order = [(message.sender, message.direction.index(1)) for message in indirect.messages]
    assert order == sorted(order) and all(sum(message.direction) == 1 for message in indirect.messages)
    assert all(message.cells == sorted(message.cells) != [] for message in indirect.messages)
    for plan in (direct, indirect):
        assert all(plan.board_of[message.sender] != plan.board_of[message.taker] for message in plan.messages)
    return any(not set(message.cells) & set(indirect.cells_of[message.sender]) for message in indirect.messages)


def main(words):
    count = int(words[0]) if words else 60
    model.check_paper()
    draw = vectors.Draw(9)
    recipes = list(model.ROWS.values()) + vectors.route_recipes() + vectors.single_recipes()
    for k in range(count):
        n, m = [(3, 2), (4, 2), (4, 3), (2, 1), (3, 1)][k % 5]
        recipes.append(vectors.drawn_recipe(draw, 60, most_words=500, n=n, m=m, distances=draw.between(1, 4), least=1 + k % 2))
    alone = len([encoded for encoded in recipes if check(encoded, draw)])
    assert alone >= count // 10, alone
    print('%d recipes: both routes give the sweep; %d have a message of forwarded cells alone' % (len(recipes), alone))


if __name__ == '__main__':
    main(sys.argv[1:])
