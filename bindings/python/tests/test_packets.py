"""Packets against the independent model: chunks of any item, whatever bytes come, and runs over a network that loses, repeats and damages."""

import array

from support import RUNS, Case, Draw, calls, flat, model, number_of, recipe_of, rolwyddac

RUN = 0x0123456789ABCDEF


def words_of(length):
    return array.array('I', [7] * length)


def packet_of(mark, run, life, kind, sender, taker, item, chunk, words):
    """Number and bytes of a packet by the library."""
    space = bytearray(b'\7' * model.LONGEST_PACKET)
    told = calls.EXPORTED['packet'].answer(mark, run, life, kind, sender, taker, item, chunk, words_from(words), space)
    assert bytes(space[told.length:]) == b'\7' * (model.LONGEST_PACKET - told.length)
    return told.number, bytes(space[:told.length])


def words_from(words):
    return array.array('I', words)


class Packets(Case):
    def test_items(self):
        draw = Draw(61)
        for length in (0, 1, 284, 285, 286, 570, 571, 18240, 18241):
            words = [draw.word() for _ in range(length)]
            for chunk in (0, 1, 2, 63, 64):
                fields = [draw.word() * 2 ** 32 + draw.word() for _ in range(3)] + [draw.word() for _ in range(4)] + [chunk, words]
                self.assertEqual(packet_of(*fields), model.packet(*fields))

    def test_marks(self):
        draw = Draw(62)
        for _ in range(RUNS):
            encoded, route = bytes(draw.below(256) for _ in range(draw.below(80))), draw.word()
            self.assertEqual(calls.EXPORTED['fingerprint'](encoded, route).fingerprint, model.fingerprint(encoded, route))

    def test_what_comes(self):
        draw = Draw(63)
        read, mark = calls.EXPORTED['packet_read'], model.fingerprint(b'', 0)
        sent = model.packet(mark, RUN, 5, 4, 2, 3, 6, 1, list(range(300)))[1]
        seen = set()
        for _ in range(400):
            text = bytearray(sent)
            for _ in range(draw.below(3)):
                text[draw.below(len(text))] = draw.below(256)
            text = bytes(text[:draw.below(len(text) + 1)] if draw.below(4) == 0 else text + b'0' * (draw.below(8) == 0))
            run, words = RUN + (draw.below(4) == 0), words_of(285)
            number = model.packet_number(mark, run, text)
            told = read.answer(mark, run, text, words)
            seen.add(number)
            self.assertEqual(told.number, number)
            if number:
                self.assertEqual((told.told(), list(words)), ([0] * 8, [7] * 285))
            else:
                self.assertEqual(told.told(), [4, 2, 3, 6, 1, 2, 15, 5])
                self.assertEqual(list(words), list(range(285, 300)) + [7] * 270)
        self.assertEqual(seen, {0, 26, 27})

    def test_chunks(self):
        area, mask, item = words_of(600), 0, list(range(600))
        for chunk in (2, 0, 2, 1):
            brought = item[285 * chunk:285 * chunk + 285]
            for wrong in ((3, 3, brought), (chunk, 4, brought), (chunk, 3, brought[1:])):
                self.assertEqual(number_of(calls.EXPORTED['chunk'], wrong[0], wrong[1], words_from(wrong[2]), area, mask), 11)
            told = calls.EXPORTED['chunk'](chunk, 3, words_from(brought), area, mask)
            mask |= 1 << chunk
            self.assertEqual((told.whole, told.mask), (int(mask == 7), mask))
        self.assertEqual(list(area), item)
        self.assertEqual(number_of(calls.EXPORTED['chunk'], 0, 1, words_of(0), words_of(18241), 0), 9)

    def test_runs(self):
        """Boards that post again until all have finished, over a network that loses half, repeats and damages: the sweep."""
        draw, runs = Draw(64), 0
        while runs < 8:
            encoded = bytes(model.encode(**recipe_of(draw)))
            plan = model.plan_of(encoded)[1]
            if plan is None or not plan.messages:
                continue
            runs += 1
            source = [draw.word() for _ in range(plan.cells)]
            boards = [rolwyddac.Board(encoded, rolwyddac.DIRECT, source, b) for b in range(plan.boards)]
            posted, left = [], set(range(plan.boards))
            while left:
                for b in sorted(left):
                    number = number_of(boards[b].turn)
                    self.assertIn(number, (0, 12, 13))
                    if number == 13:
                        left.discard(b)
                    posted += [(b, m, boards[b].post(m)[0]) for m in boards[b].in_flight()]
                for b, m, to in posted:
                    text = bytearray(boards[b].packet(RUN, draw.word(), m, 0))
                    fate = draw.below(4)
                    if fate == 0:
                        text[draw.below(len(text))] ^= 1 + draw.below(255)
                    if fate < 2:
                        self.assertIn(number_of(boards[to].receive, RUN, bytes(text)), (14, 26) if fate == 0 else (0, 14))
            for c, word in enumerate(plan.swept(source)):
                if plan.inside[c]:
                    self.assertEqual(flat(boards[plan.board_of[plan.tile_of[c]]].memory())[c], word)
