"""The cases of hf_at.txt, numerator.txt, update.txt and dimension.txt in tests/vectors. A string among them is a comment line."""
from itertools import combinations
from math import comb
from random import Random

import meaning
from cases import dimension_case, flat, hf_at_case, numerator_case, update_case
from chosen_monomials import WORD_END
from examples import TRIANGLE, pure
from generate import artinian_lists, edges, full_lists, random_list, random_lists, spread, wide_lists


# hf_at.txt

def next_to_bound(n, d, beside):
    """The least coefficient whose binomial makes 2^127 with the magnitudes beside it, and one less."""
    rest = meaning.binomial_sum([0] + [abs(c) for c in beside], n, d)
    least = -(-(2 ** 127 - rest) // comb(d + n - 1, n - 1))
    for c in (least, least - 1):
        yield hf_at_case(n, [c, *beside], d)
        yield hf_at_case(n, [-c, *beside], d)


def with_magnitude(total, n, d):
    """Nonnegative coefficients whose magnitudes at degree d sum to the total exactly; the last binomial is 1."""
    given = []
    for k in range(d + 1):
        c = min(total // comb(d - k + n - 1, n - 1), 2 ** 63 - 1)
        total -= c * comb(d - k + n - 1, n - 1)
        given.append(c)
    return given


def exactly_at_bound():
    for total in (2 ** 127 - 1, 2 ** 127):
        given = with_magnitude(total, 255, 20)
        yield hf_at_case(255, given, 20)
        yield hf_at_case(255, [-c for c in given], 20)
        yield hf_at_case(255, [c * (-1) ** k for k, c in enumerate(given)], 20)


def hf_values():
    yield "document 01's examples"
    for n, listed, degrees in ((2, TRIANGLE, 4), (2, pure([3, 2]), 6), (3, edges(3, [(0, 1), (1, 2), (0, 2)]), 4)):
        yield from (hf_at_case(n, meaning.numerator(listed, n), d) for d in range(degrees))
    yield hf_at_case(1, [-2 ** 63], 0)
    yield "C(130,65), where the Rust clamps; then 11"
    yield from (hf_at_case(n, [1], 65) for n in (65, 66, 67, 68))
    yield "no variables, no coefficients, coefficients past the degree asked for"
    for given in ([], [5], [5, -6, 7], [-2 ** 63, 2 ** 63 - 1]):
        yield from (hf_at_case(0, given, d) for d in (0, 1, 2, 9))
    yield from (hf_at_case(n, [], 3) for n in (1, 255))
    yield hf_at_case(2, [1, 1, 1, 1, 1, 1], 2)
    yield "negative answers and the ends of a coefficient"
    for given in ([-1], [1, -9], [2 ** 63 - 1, -2 ** 63], [-2 ** 63] * 3, [2 ** 61, -2 ** 61 - 1]):
        yield from (hf_at_case(n, given, d) for n, d in ((1, 0), (1, 7), (2, 1), (3, 5), (255, 2)))
    yield from hf_limits()


def hf_limits():
    yield "the value rule, from both sides; cancellation does not help"
    for n, d, beside in ((30, 300, []), (12, 3000, []), (30, 300, [-5]), (20, 700, [3, -4]), (66, 40, [])):
        yield from next_to_bound(n, d, beside)
    yield hf_at_case(12, [2 ** 62, -2 ** 62], 3000)
    yield hf_at_case(6, [2 ** 63 - 1, 1 - 2 ** 63], 65536)
    yield "magnitudes that sum to 2^127 - 1, and to 2^127"
    yield from exactly_at_bound()
    yield "width 255 and above, with the order of checks"
    yield from (hf_at_case(n, [1], d) for n in (255, 256) for d in (0, 1, 2))
    yield "hf_at", WORD_END, [1], WORD_END, 0
    yield "hf_at", 256, [1], 65537, 0
    yield "degree asked for at and above 65,536; sum room one short, exact, longer"
    for n in (0, 1, 2):
        yield hf_at_case(n, [1, -1, 3], 65536)
        yield hf_at_case(n, [1, -1, 3], 65536, 1)
        yield "hf_at", n, [1], 65537, 4 * 65538
    yield "the greatest width at the greatest degree"
    yield from (hf_at_case(255, given, 65536) for given in ([], [0, 0], [1], [1, -1]))
    yield "hf_at", 3, [1], 2 ** 62 - 1, 4
    yield "hf_at", 3, [1], WORD_END, 0
    for short in (1, 0, -1, -3):
        yield hf_at_case(2, [1, 0, -3, 2], 2, short)
        yield hf_at_case(67, [1], 65, short)
        yield hf_at_case(0, [1], 0, short)


# numerator.txt

STARRED = [(3, []), (2, [(0, 0)]), (0, []), (0, [()]), (2, TRIANGLE), (2, pure([3, 2])),
           (3, [(1, 1, 0), (0, 1, 1), (1, 0, 1)]), (1, [(5,), (3,), (3,)])]


def all_lists():
    """Named lists that every call on lists gets."""
    yield from STARRED
    yield 0, [()] * 5
    yield 0, [()] * 60
    yield 2, [(0, 0), (3, 1)]
    yield 2, [(3, 1), (3, 1), (3, 2), (0, 4)]
    yield 1, [(0,), (65535,)]
    yield 1, [(1,), (65535,)]
    yield 60, pure([1] * 60)
    yield 60, pure([2] * 60)
    yield 2, [(k, 59 - k) for k in range(60)]
    yield 255, [spread(255, pair, (1, 1)) for pair in list(combinations(range(0, 240, 20), 2))[:60]]
    yield 255, [(1,) * 255, (1,) * 254 + (0,)]
    yield 5, edges(5, [(a, b) for a in range(5) for b in range(a)])
    yield 10, edges(10, [(v, (v + 1) % 10) for v in range(10)])
    yield 2, [(9000, 1), (1, 9000)]


# Width, count and number of cells.
WRONG_SIZES = [
    (256, 0, 0), (256, 61, 1), (WORD_END, 0, 0), (2 ** 63, 2, 0),
    (2, 2 ** 63, 0), (2, 61, 122), (0, 61, 0), (1, 61, 61), (255, WORD_END, 0), (0, WORD_END, 0),
    (0, 60, 1), (2, 1, 1), (2, 1, 3), (2, 0, 1), (3, 2, 7),
]


def wrong_sizes(call, *rooms):
    """1, 2 and 3, with cells that would fit if the product wrapped."""
    yield "width, count and cells past their limits; a product of count and width that would wrap"
    for n, s, length in WRONG_SIZES:
        yield call, n, s, [1] * length, *rooms


def rooms_around(case, n, listed, rooms):
    """Each room one short alone, all short, and all longer."""
    for k in range(rooms):
        yield case(n, listed, tuple(int(j == k) for j in range(rooms)))
    yield case(n, listed, (1,) * rooms)
    yield case(n, listed, tuple(-1 - j for j in range(rooms)))


def numerators():
    yield "document 01's examples and named lists"
    yield from (numerator_case(n, listed) for n, listed in all_lists())
    yield from wrong_sizes("numerator", 40000, 300, 300)
    yield "rooms one short and longer"
    for n, listed in STARRED + [(1, [(0,), (65535,)]), (0, [()] * 60)]:
        yield from rooms_around(numerator_case, n, listed, 3)
    yield "a sample of random lists"
    rng = Random(30)
    for source, count in ((random_lists, 30), (artinian_lists, 15), (wide_lists, 4), (full_lists, 6)):
        yield from (numerator_case(n, listed) for n, listed in source(rng, count))


# update.txt

def updates():
    yield "document 01's example; then named lists from nothing, from their half, and by their own members"
    yield update_case(1, [1, 0, 0, 0, 0, -1], [(5,)], [(3,)])
    for n, listed in all_lists():
        half = len(listed) // 2
        yield update_case(n, [1], [], listed)
        yield update_case(n, meaning.numerator(listed[:half], n), listed[:half], listed[half:])
    for n, listed in STARRED:
        yield update_case(n, meaning.numerator(listed, n), listed, listed[:1])
    yield "new monomials that an earlier one divides stand before, between and behind others"
    for added in ([(5, 5), (0, 1)], [(0, 3), (5, 5), (1, 0)], [(1, 1), (1, 1), (2, 2)], [(4, 4)], [(0, 0), (1, 0)]):
        yield update_case(2, meaning.numerator([(2, 2), (4, 0)], 2), [(2, 2), (4, 0)], added)
    yield "given coefficients that are no numerator, with zeros at the end, longer than the lists ask, or none"
    for given in ([], [0], [0] * 30, [1, 2, 3, 0, 0], [5] * 40, [-1, 0, 3, -2], [0, 0, 3, -2], [-1]):
        yield update_case(2, given, [], TRIANGLE)
        yield update_case(2, given, TRIANGLE, [(1, 0)])
        yield update_case(2, given, TRIANGLE, [])
    yield from update_limits()
    yield "a sample of random lists"
    rng = Random(31)
    for n, listed in random_lists(rng, 20):
        added = random_list(rng, n, rng.randint(0, 4), 4)
        yield update_case(n, meaning.numerator(listed, n), listed, added)


# Width, then count and number of cells of either list.
UPDATE_SIZES = [
    (255, 0, 0, 0, 0), (256, 0, 0, 0, 0), (256, 61, 1, 61, 1), (WORD_END, 0, 0, 0, 0),
    (1, 30, 30, 30, 30), (1, 30, 30, 31, 31), (1, 61, 61, 0, 0), (1, 0, 0, 61, 61), (0, 59, 0, 1, 0), (0, 60, 0, 1, 0),
    (2, 2 ** 63, 0, 2 ** 63, 0), (2, WORD_END, 0, 1, 2), (2, 1, 2, WORD_END, 0),
    (2, 1, 1, 1, 2), (2, 1, 2, 1, 3), (2, 1, 3, 1, 3), (2, 2, 2, 0, 2), (0, 1, 1, 0, 0),
]


def update_limits():
    bound = 2 ** 61
    yield "given coefficients at the ends of -2^61..2^61 and past them, in every place"
    for c in (bound, -bound, bound + 1, -bound - 1, 2 ** 63 - 1, -2 ** 63):
        yield update_case(2, [c], [], TRIANGLE)
        yield update_case(2, [1, 0, 0, 0, 0, 0, c], TRIANGLE, [(1, 0)])
        yield update_case(0, [0, c], [], [()])
    yield "width, counts and cells at their limits and past them; sums and products that would wrap"
    for n, s0, l0, s1, l1 in UPDATE_SIZES:
        yield "update", n, [1], s0, [1] * l0, s1, [1] * l1, 4000, 9, 9
    yield "15 comes after 3 and before 7 and 8"
    yield "update", 2, [bound + 1], 1, [1], 0, [], 0, 0, 0
    yield "update", 2, [bound + 1], 1, [1, 1], 1, [1, 0], 0, 0, 0
    yield "update", 2, [bound], 1, [1, 1], 1, [1, 0], 0, 0, 0
    yield "rooms one short and longer; the given coefficients may be the longer ones"
    for given in ([1, 0, -1], [1] * 12):
        for short in ((1, 0, 0), (0, 1, 0), (0, 0, 1), (1, 1, 1), (-1, -2, -3)):
            yield update_case(2, given, [(1, 1)], [(2, 0), (0, 2)], short)


# dimension.txt

def dimensions():
    yield "document 01's examples and named lists"
    yield from (dimension_case(n, listed) for n, listed in all_lists())
    yield "D at and above 65,536; the product of all a_v below, at and above 2^127; the Rust clamps on the last two that are done"
    for powers in ([32769, 32769], [32770, 32769], [65535], [65535, 3], [1024] * 12 + [127], [1024] * 12 + [128],
                   [1024] * 12 + [256], [4] * 53 + [2] * 7):
        yield dimension_case(len(powers), pure(powers))
    yield "13 before 11, 11 before the rooms; a unit and n = 0 before all of them, and no room touched"
    for n, listed in ((2, pure([65535, 65535])), (14, pure([1024] * 12 + [128] + [65535])), (13, pure([1024] * 12 + [128])),
                      (13, pure([1024] * 12 + [127])), (2, [(0, 0), (3, 0)]), (2, [(3, 0), (0, 0)]), (0, []), (0, [()]),
                      (3, [(1, 1, 0)])):
        yield "dimension", n, len(listed), flat(listed), 0, 0, 0, 0
    yield "the least pure power counts, wherever it stands"
    for listed in ([(5, 0), (3, 0), (0, 2)], [(3, 0), (5, 0), (0, 2)], [(0, 2), (5, 0), (3, 0), (4, 0)], [(1, 0), (0, 1)]):
        yield dimension_case(2, listed)
    yield from wrong_sizes("dimension", 9, 9, 9, 9)
    yield "rooms one short and longer"
    for n, listed in STARRED + [(2, pure([40, 30])), (3, pure([2, 3, 4]) + [(1, 1, 1)])]:
        yield from rooms_around(dimension_case, n, listed, 4)
    yield "a sample of random lists"
    rng = Random(32)
    yield from (dimension_case(n, listed) for n, listed in artinian_lists(rng, 40))
