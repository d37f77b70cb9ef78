"""The examples that document 01 settles by, and small exhaustive checks that its definitions agree with each other."""
from itertools import product
from math import comb

import meaning
import oracle
from cases import dimension_case, hf_at_case, numerator_case, run, update_case

TRIANGLE = [(2, 0), (1, 1), (0, 2)]


def pure(powers):
    n = len(powers)
    return [tuple(a if k == v else 0 for k in range(n)) for v, a in enumerate(powers)]


def coefficients_of(n, listed):
    outcome = run(numerator_case(n, listed))
    return outcome.number, outcome.lent[1][:outcome.values[0]]


def dimension_of(n, listed):
    number, values, _ = run(dimension_case(n, listed))
    return values[0] if number == 0 else f"refusal {number}"


def update_of(n, given, existing, added):
    outcome = run(update_case(n, given, existing, added))
    return outcome.lent[1][:outcome.values[0]]


def hf_of(n, listed, degrees):
    return [meaning.count_at(listed, n, d) for d in degrees]


def record_of(n, listed):
    outcome = run(("write_record", n, len(listed), [x for m in listed for x in m], 7 + 2 * n * len(listed)))
    return bytes(outcome.lent[0][:outcome.values[0]]).hex().upper()


def answer_of(record):
    number, _, lent = run(("host", list(record), 26))
    return number, bytes(lent[0]).hex().upper()


def host_number(listed, n):
    return answer_of(meaning.ideal_record(listed, n))[0]


def starred():
    """The proved ones of 01."""
    yield "n=3, none", coefficients_of(3, []), (0, [1])
    yield "n=3, none, dimension", dimension_of(3, []), "refusal 13"
    yield "n=2, (0,0)", coefficients_of(2, [(0, 0)]), (0, [])
    yield "n=2, (0,0), dimension", dimension_of(2, [(0, 0)]), 0
    yield "n=0, none", coefficients_of(0, []), (0, [1])
    yield "n=0, none, dimension", dimension_of(0, []), 1
    yield "n=0, unit", coefficients_of(0, [()]), (0, [])
    yield "n=0, unit, dimension", dimension_of(0, [()]), 0
    yield "n=0, unit, record", record_of(0, [()]), "01000000020001"
    yield "triangle", coefficients_of(2, TRIANGLE), (0, [1, 0, -3, 2])
    yield "triangle, HF", hf_of(2, TRIANGLE, range(3)), [1, 2, 0]
    yield "triangle, dimension", dimension_of(2, TRIANGLE), 3
    yield "triangle, e", meaning.pairs(TRIANGLE), 4
    yield "triangle, cells", oracle.asked_cells(TRIANGLE, 2), 42
    yield "triangle, coefficients", oracle.asked_coefficients(TRIANGLE, 2), 5
    yield "triangle, record", record_of(2, TRIANGLE), "010000000E0203000200000001000100000002"
    yield "triangle, answer", answer_of(meaning.ideal_record(TRIANGLE, 2)), (0, "010000001500" + "00" * 15 + "0300000002")
    yield "(3,0)(0,2)", coefficients_of(2, [(3, 0), (0, 2)]), (0, [1, 0, -1, -1, 0, 1])
    yield "(3,0)(0,2), HF", hf_of(2, [(3, 0), (0, 2)], range(4)), [1, 2, 2, 1]
    yield "(3,0)(0,2), dimension", dimension_of(2, [(3, 0), (0, 2)]), 6
    cycle = [(1, 1, 0), (0, 1, 1), (1, 0, 1)]
    yield "cycle", coefficients_of(3, cycle), (0, [1, 0, -3, 2])
    yield "cycle, HF", hf_of(3, cycle, range(4)), [1, 3, 3, 3]
    yield "cycle, dimension", dimension_of(3, cycle), "refusal 13"
    yield "(5)(3)(3)", coefficients_of(1, [(5,), (3,), (3,)]), (0, [1, 0, 0, -1])
    yield "(5)(3)(3), dimension", dimension_of(1, [(5,), (3,), (3,)]), 3
    yield "(5)(3)(3), record", record_of(1, [(5,), (3,), (3,)]), "010000000401010003"
    yield "update (5) by (3)", update_of(1, [1, 0, 0, 0, 0, -1], [(5,)], [(3,)]), [1, 0, 0, -1]
    yield "[-2^63] at 0", run(hf_at_case(1, [-2 ** 63], 0))[:2], (0, (-2 ** 63,))


def others():
    """The ones of 01 that are run."""
    yield "32769 twice, D", meaning.top_degree([32769, 32769]), 65536
    yield "32769 twice", dimension_of(2, pure([32769, 32769])), 1073807361
    yield "32770 and 32769", dimension_of(2, pure([32770, 32769])), "refusal 13"
    yield "[1], n=66, d=65", run(hf_at_case(66, [1], 65))[:2], (0, (comb(130, 65),))
    yield "[1], n=67, d=65", run(hf_at_case(67, [1], 65))[:2], (11, ())
    yield "[1], n=68, d=65", run(hf_at_case(68, [1], 65))[:2], (11, ())
    yield "127 * 2^120", dimension_of(13, pure([1024] * 12 + [127])), 127 * 2 ** 120
    yield "2^127", dimension_of(13, pure([1024] * 12 + [128])), "refusal 11"
    yield "2^128", dimension_of(13, pure([1024] * 12 + [256])), "refusal 11"
    yield "mask of width 64", run(("mask", 64, 4, [0] * 32 + [3])).values, (1 << 64,)
    yield "sixty squares", dimension_of(60, pure([2] * 60)), 2 ** 60
    yield "s = 2^63, n = 2", run(("numerator", 2, 2 ** 63, [], 0, 0, 0)).number, 2


def rooms():
    """Sizes asked and the rooms of `dim`."""
    yield "(5)(3)(3), cells", oracle.asked_cells([(5,), (3,), (3,)], 1), 15
    yield "(5)(3)(3), coefficients", oracle.asked_coefficients([(5,), (3,), (3,)], 1), 6
    yield "(0,0), cells", oracle.asked_cells([(0, 0)], 2), 2
    yield "dim, 20 squares", host_number(pure([2] * 20), 20), 0
    yield "dim, 21 squares", host_number(pure([2] * 21), 21), 7
    yield "dim, x^2048", host_number(pure([2048]), 1), 0
    yield "dim, x^2049", host_number(pure([2049]), 1), 9
    yield "dim, x^4096", host_number(pure([4096]), 1), 8
    yield "dim, 32769 twice", host_number(pure([32769, 32769]), 2), 8
    yield "dim, 127 * 2^120", host_number(pure([1024] * 12 + [127]), 13), 8
    yield "dim, 2^127", host_number(pure([1024] * 12 + [128]), 13), 11
    longer = run(numerator_case(1, [(1,)], (-2, -1, -3))).lent
    yield "rooms kept beyond the asked part", longer, [[0, 0, 9, 10], [1, -1, 9], [0, 0, 9, 10, 11]]
    yield "room kept on refusal", run(numerator_case(1, [(1,)], (0, 0, 1))).lent, [[7, 8], [7, 8], [7]]
    yield "sums zero after 11", run(hf_at_case(67, [1], 65, -2)).lent, [[0] * 264 + [11, 7]]
    yield "no room touched by a unit", run(("dimension", 1, 1, [0], 1, 1, 1, 1)).lent, [[7]] * 4


def tiny_lists():
    """All lists of at most three monomials with small exponents."""
    for n, largest in ((0, 0), (1, 3), (2, 2), (3, 1)):
        monomials = list(product(range(largest + 1), repeat=n))
        for s in range(4):
            yield from ((n, list(listed)) for listed in product(monomials, repeat=s))


def agreements():
    """The count and the subset sum give one HF; both dimensions are one."""
    for n, listed in tiny_lists():
        coefficients = meaning.numerator(listed, n)
        counts = hf_of(n, listed, range(6))
        yield f"HF of {listed}", meaning.series(coefficients, n, 5), counts
        yield f"binomials of {listed}", [meaning.binomial_sum(coefficients, n, d) for d in range(6)], counts
        if None not in meaning.pure_powers(listed, n):
            yield f"dimension of {listed}", meaning.dimension_by_sum(listed, n), meaning.dimension_by_listing(listed, n)


def main():
    passed = failed = 0
    for checks in (starred, others, rooms, agreements):
        for name, found, wanted in checks():
            if found == wanted:
                passed += 1
            else:
                failed += 1
                print(f"FAIL {name}: {found}, not {wanted}")
    print(f"self-test: {passed} passed, {failed} failed")
    return 1 if failed else 0
