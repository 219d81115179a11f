"""Short cases: the kits held, the question, its list's units, and the answer."""

WITHIN, CONTAINING, DELETE = "within", "containing", "delete"

# Document 01's table. The answer to a deletion is the nodes used after it; to a question, the
# kits in order. By request 14 "document 01's empty kit within an empty bin now answers none".
SHORT_CASES = [
    ([], WITHIN, (1,), []),
    ([()], WITHIN, (), []),
    ([()], CONTAINING, (1,), []),
    ([(1,), (1, 1)], WITHIN, (1,), [(1,)]),
    ([(1,), (1, 1)], CONTAINING, (1,), [(1,), (1, 1)]),
    ([(1, 3)], CONTAINING, (3,), [(1, 3)]),
    ([(2,)], WITHIN, (1, 2), [(2,)]),
    ([(1, 2), (2,)], WITHIN, (2, 3), [(2,)]),
    ([(1,), (1, 2)], DELETE, (1,), 3),
    ([(1,), (1, 2)], DELETE, (1, 2), 2),
]

# Questions on which the printed search steps of 000 and 003 go wrong, answered by inclusion; one
# more of them, (1,3) containing {3}, is in the document's table.
PRINTED_STEPS = [
    ([(1,)], CONTAINING, (1,), [(1,)]),
    ([(3, 5)], CONTAINING, (1, 3), []),
    ([(1, 3), (2,)], WITHIN, (1, 2), [(2,)]),
    ([(1,), (2,)], WITHIN, (1, 2), [(1,), (2,)]),
    ([(1,), (1, 2)], WITHIN, (1, 2), [(1,), (1, 2)]),
    ([(1,)], WITHIN, (1, 1), [(1,)]),
]

# Kits that a bin almost fills, worked out by hand: the kits held, the bin's units, the most that
# a kit may lack, and the kits in order, each with its shortfall. An empty kit is passed over.
ALMOST_CASES = [
    ([], (1,), 64, []),
    ([()], (), 0, []),
    ([()], (1,), 64, []),
    ([(), (1,)], (), 0, []),
    ([(), (1,)], (), 1, [((1,), 1)]),
    # 3 of part 1 and 1 of part 2 beside 2 of part 1 and 5 of part 3: one of each is lacking
    ([(1, 1, 1, 2)], (1, 1, 3, 3, 3, 3, 3), 1, []),
    ([(1, 1, 1, 2)], (1, 1, 3, 3, 3, 3, 3), 2, [((1, 1, 1, 2), 2)]),
    # three of one part are lacking, then two of a part whose neighbours are there in plenty
    ([(2, 2, 2, 2)], (2,), 2, []),
    ([(2, 2, 2, 2)], (2,), 3, [((2, 2, 2, 2), 3)]),
    ([(2, 2)], (1, 1, 1, 3, 3, 3), 1, []),
    ([(2, 2)], (1, 1, 1, 3, 3, 3), 2, [((2, 2), 2)]),
    # what is lacking stands first, in the middle, last
    ([(1, 2, 2), (2, 2, 3), (2, 3, 3)], (2, 2, 3), 1,
     [((1, 2, 2), 1), ((2, 2, 3), 0), ((2, 3, 3), 1)]),
    ([(1, 2, 3), (1, 3), (2,)], (1, 3), 1, [((1, 2, 3), 1), ((1, 3), 0), ((2,), 1)]),
    # a beginning lacks less than what goes on, and a beginning that is no kit is not listed
    ([(1,), (1, 1), (1, 1, 1)], (1,), 1, [((1,), 0), ((1, 1), 1)]),
    ([(1, 1, 2), (1, 3)], (), 2, [((1, 3), 2)]),
    # behind a branch that lacks too much there is one that does not
    ([(1, 1, 1), (1, 2), (2, 2)], (2,), 1, [((1, 2), 1), ((2, 2), 1)]),
]

# Kits that begin with a list, worked out by hand: the kits held, the list's units, how many. An
# empty kit is not counted.
COUNT_CASES = [
    ([], (), 0),
    ([], (1,), 0),
    ([()], (), 0),
    ([()], (1,), 0),
    ([(), (1,)], (), 1),
    ([(), (1,)], (1,), 1),
    ([(1,)], (), 1),
    ([(1,)], (1,), 1),
    ([(1,)], (2,), 0),
    # past a leaf, by the same part and by another
    ([(1,)], (1, 1), 0),
    ([(1,)], (1, 2), 0),
    # a beginning that is no kit, and one of which another kit has only a part
    ([(1, 1, 2)], (1,), 1),
    ([(1, 1, 2)], (1, 1), 1),
    ([(1, 1, 2)], (1, 2), 0),
    ([(1, 1, 2), (1, 1, 3), (1, 2)], (1, 1), 2),
    ([(1, 1, 2), (1, 1, 3), (1, 2)], (1,), 3),
    # a kit and those that go on from it; what it contains elsewhere than at its front is none
    ([(1,), (1, 1), (1, 1, 1), (2,)], (1,), 3),
    ([(1,), (1, 1), (1, 1, 1), (2,)], (1, 1), 2),
    ([(1,), (1, 1), (1, 1, 1), (2,)], (), 4),
    ([(), (1, 2, 3), (2,), (2, 3)], (2,), 2),
    ([(), (1, 2, 3), (2,), (2, 3)], (3,), 0),
    ([(), (1, 2, 3), (2,), (2, 3)], (), 3),
    ([(), (1, 2, 3), (2,), (2, 3)], (1, 2, 3), 1),
]

# Pages, worked out by hand: the kits held, the question, its list's units, the row that a bookmark
# is begun at (None where it is not begun), and the kit shown (None where none is left).
FOUR_HELD = [(1, 2, 5), (1, 3), (2,), (2, 3)]
PAGE_CASES = [
    ([], WITHIN, (1,), None, None),
    ([], CONTAINING, (), (), None),
    # an empty kit is passed over, and a bookmark may be begun at its row
    ([()], WITHIN, (), None, None),
    ([()], CONTAINING, (), None, None),
    ([()], CONTAINING, (), (), None),
    ([(), (1,)], CONTAINING, (), None, (1,)),
    ([(), (1,)], WITHIN, (1,), (), (1,)),
    ([(1,), (1, 1)], WITHIN, (1,), None, (1,)),
    ([(1,), (1, 1)], WITHIN, (1,), (1,), None),
    ([(1,), (1, 1)], CONTAINING, (1,), (1,), (1, 1)),
    ([(1,), (1, 1)], CONTAINING, (1,), (1, 1), None),
    # the row is not held: before, between and behind the kits
    ([(1, 2), (3,)], CONTAINING, (), (1,), (1, 2)),
    ([(1, 2), (3,)], CONTAINING, (), (1, 1), (1, 2)),
    ([(1, 2), (3,)], CONTAINING, (), (1, 1, 5), (1, 2)),
    ([(1, 2), (3,)], CONTAINING, (), (1, 2, 2), (3,)),
    ([(1, 2), (3,)], CONTAINING, (), (1, 3), (3,)),
    ([(1, 2), (3,)], CONTAINING, (), (2,), (3,)),
    ([(1, 2), (3,)], CONTAINING, (), (3, 3), None),
    ([(1, 2), (3,)], CONTAINING, (), (5,), None),
    # what does not answer is passed over, and the row need not answer
    (FOUR_HELD, WITHIN, (1, 2, 3), None, (1, 3)),
    (FOUR_HELD, WITHIN, (1, 2, 3), (1,), (1, 3)),
    (FOUR_HELD, WITHIN, (1, 2, 3), (1, 2, 4), (1, 3)),
    (FOUR_HELD, WITHIN, (1, 2, 3), (1, 2, 5), (1, 3)),
    (FOUR_HELD, WITHIN, (1, 2, 3), (1, 3), (2,)),
    (FOUR_HELD, WITHIN, (1, 2, 3), (2,), (2, 3)),
    (FOUR_HELD, WITHIN, (1, 2), (1, 1), (2,)),
    (FOUR_HELD, WITHIN, (1, 2), (2,), None),
    (FOUR_HELD, CONTAINING, (3,), None, (1, 3)),
    (FOUR_HELD, CONTAINING, (3,), (1, 3), (2, 3)),
    (FOUR_HELD, CONTAINING, (3,), (2,), (2, 3)),
    (FOUR_HELD, CONTAINING, (3,), (2, 3), None),
    (FOUR_HELD, CONTAINING, (2,), (1, 2, 5), (2,)),
    (FOUR_HELD, CONTAINING, (5,), (1, 2), (1, 2, 5)),
    (FOUR_HELD, CONTAINING, (5,), (1, 2, 5), None),
]
