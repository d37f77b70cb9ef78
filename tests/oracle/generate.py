"""Cases from fixed seeds: exhaustive where lists are tiny, random around every limit, structured where they are large.

lists(scale)   == pairs of a width and a list, for numerators and dimensions
cases(scale)   == all cases; scale 1 is the standard run
records(scale) == bytes, some of them records, most of them damaged
"""
from itertools import combinations, combinations_with_replacement, product
from math import comb
from random import Random

import meaning
from cases import dimension_case, flat, hf_at_case, numerator_case, update_case
from examples import TRIANGLE, pure, tiny_lists

MONOMIAL_PAIR_CALLS = ("divides", "coprime", "lex", "degrevlex")
MONOMIAL_OUTPUT_CALLS = ("product", "quotient", "lcm", "gcd")
WIDTHS = (0, 1, 2, 3, 7, 127, 128, 129, 254, 255)
EXPONENTS = (0, 0, 0, 1, 1, 2, 3, 255, 256, 32767, 32768, 65534, 65535)


# Lists.

def random_monomial(rng, n, largest, density=0.6):
    return tuple(rng.randint(1, largest) if rng.random() < density else 0 for _ in range(n))


def random_list(rng, n, s, largest, density=0.6):
    return [random_monomial(rng, n, largest, density) for _ in range(s)]


def four_of_a_square():
    """Sets of four monomials in two variables with exponents up to 3."""
    for listed in combinations(list(product(range(4), repeat=2))[1:], 4):
        yield 2, list(listed)


def two_of_a_cube():
    """Pairs of monomials in three variables with exponents up to 2."""
    for listed in combinations_with_replacement(list(product(range(3), repeat=3))[1:], 2):
        yield 3, list(listed)


def random_lists(rng, count):
    for _ in range(count):
        n, s = rng.randint(1, 6), rng.randint(1, 8)
        yield n, random_list(rng, n, s, rng.choice((1, 2, 3, 5, 9)), rng.choice((0.3, 0.6, 0.9)))


def artinian_lists(rng, count):
    """Lists with a pure power of every variable, in any order, some of them twice."""
    for _ in range(count):
        n = rng.randint(1, 5)
        listed = pure([rng.randint(1, 7) for _ in range(n)]) + random_list(rng, n, rng.randint(0, 6), 6)
        listed += pure([rng.randint(1, 9) for _ in range(n)])[:rng.randint(0, n)]
        rng.shuffle(listed)
        yield n, listed


def staircases(rng, count):
    """Larger pure powers, with a few monomials between them: dimensions up to some millions."""
    for _ in range(count):
        n = rng.randint(2, 4)
        yield n, pure([rng.randint(5, 40) for _ in range(n)]) + random_list(rng, n, rng.randint(0, 5), 25)


def square_free_and_squares(rng, count):
    """Circuit-like lists: small powers of every variable and a few products of two or three variables."""
    for _ in range(count):
        n = rng.randint(6, 9)
        products = [spread(n, rng.sample(range(n), 3), (1, 1, rng.randint(0, 1))) for _ in range(rng.randint(1, 4))]
        yield n, pure([rng.choice((2, 2, 3)) for _ in range(n)]) + products


def wide_lists(rng, count):
    """Width up to 255, few variables used."""
    for _ in range(count):
        n = rng.choice((60, 127, 128, 254, 255))
        used = rng.sample(range(n), 4)
        yield n, [spread(n, used, random_monomial(rng, 4, 3)) for _ in range(rng.randint(1, 8))]


def spread(n, used, small):
    monomial = [0] * n
    for v, x in zip(used, small):
        monomial[v] = x
    return tuple(monomial)


def large_exponents(rng, count):
    """Few monomials with exponents up to 65,535: the polynomials are long and nearly empty."""
    for _ in range(count):
        n = rng.randint(1, 3)
        yield n, [tuple(rng.choice(EXPONENTS) for _ in range(n)) for _ in range(rng.randint(1, 3))]


def full_lists(rng, count):
    """Lists of 59 and 60 monomials in few variables."""
    for _ in range(count):
        n, s = rng.randint(1, 4), rng.choice((59, 60))
        yield n, random_list(rng, n, s, rng.choice((3, 6, 9)))


def edges(n, pairs):
    return [tuple(int(v in pair) for v in range(n)) for pair in pairs]


def structured():
    """Named lists: graphs, squares, stairs, units."""
    yield 60, pure([2] * 60)
    yield 60, pure([1] * 60)
    yield 20, pure([2] * 20)
    yield 0, [()] * 60
    yield 255, [(0,) * 255] * 60
    yield 255, []
    for n in (4, 5, 6):
        yield n, edges(n, combinations(range(n), 2))
        yield n, edges(n, combinations(range(n), 2)) + pure([2] * n)
        yield n, edges(n, [(v, (v + 1) % n) for v in range(n)]) + pure([3] * n)
    yield 10, edges(10, [(v, (v + 1) % 10) for v in range(10)])
    yield 12, edges(12, [(v, v + 1) for v in range(11)])
    yield 2, [(k, 59 - k) for k in range(60)]
    yield 2, [(600 * k, 600 * (59 - k)) for k in range(60)]
    yield 3, [(a, b, 9 - a - b) for a in range(10) for b in range(10 - a)]
    yield 255, [spread(255, [v, (v + 1) % 255], (1, 1)) for v in range(0, 24, 2)]
    yield 255, [spread(255, range(4 * k, 4 * k + 4), (1, 1, 1, 1)) for k in range(60)]
    yield 13, pure([1024] * 2 + [2] * 11)
    yield 2, pure([300, 200]) + [(150, 100)]
    yield 1, [(65535,)]
    yield 2, [(65535, 0), (1, 0)]
    yield 255, [(257,) * 255]


def sixty_in_ten(rng):
    """60 monomials in 10 variables, each in few of them."""
    return 10, [spread(10, rng.sample(range(10), 3), [rng.randint(1, 2) for _ in range(3)]) for _ in range(60)]


def lists(scale):
    rng = Random(20)
    yield from tiny_lists()
    yield from four_of_a_square()
    yield from two_of_a_cube()
    yield from random_lists(rng, 4500 * scale)
    yield from artinian_lists(rng, 2500 * scale)
    yield from staircases(rng, 150 * scale)
    yield from square_free_and_squares(rng, 150 * scale)
    yield from wide_lists(rng, 300 * scale)
    yield from large_exponents(rng, 40 * scale)
    yield from full_lists(rng, 60 * scale)
    yield from structured()
    for _ in range(scale):
        yield sixty_in_ten(rng)


# The Rust's dimension takes time that grows with the square of D.
SLOW_TOP_DEGREE = 5000


def is_slow(n, listed):
    powers = meaning.pure_powers(listed, n)
    return None not in powers and SLOW_TOP_DEGREE < meaning.top_degree(powers) <= 65536


def list_cases(scale):
    for n, listed in lists(scale):
        yield numerator_case(n, listed)
        if not is_slow(n, listed):
            yield dimension_case(n, listed)


# Updates.

def coefficient_near(rng, bound):
    return rng.choice((-1, 1)) * (bound + rng.randint(-1, 1))


def random_given(rng):
    """Coefficients that are no numerator, some of them at and past the bound."""
    bounds = (2, 1000, 2 ** 61) if rng.random() < 0.8 else (2 ** 61, 2 ** 62, 2 ** 63 - 2)
    given = [coefficient_near(rng, rng.choice(bounds)) for _ in range(rng.randint(0, 12))]
    return given + [0] * rng.randint(0, 2)


def update_cases(scale):
    rng = Random(21)
    for k in range(3000 * scale):
        n = rng.randint(0, 4)
        existing = random_list(rng, n, rng.randint(0, 5), 4)
        added = random_list(rng, n, rng.randint(0, 5), 4) + rng.sample(existing, min(len(existing), k % 2))
        rng.shuffle(added)
        given = meaning.numerator(existing, n) if k % 3 else random_given(rng)
        yield update_case(n, given, existing, added)
    for n, listed in structured():
        existing, added = listed[:len(listed) // 2], listed[len(listed) // 2:]
        yield update_case(n, meaning.numerator(existing, n), existing, added)


# Values.

def random_coefficients(rng):
    bound = rng.choice((1, 9, 2 ** 20, 2 ** 61, 2 ** 63 - 2))
    return [rng.randint(-bound, bound) for _ in range(rng.randint(0, 9))]


def at_the_value_bound(rng):
    """One coefficient whose product with its binomial is next to 2^127, and one of the other sign beside it."""
    n, d = rng.randint(8, 60), rng.randint(20, 3000)
    binomial = comb(d + n - 1, n - 1)
    coefficient = 2 ** 127 // binomial + rng.randint(-1, 1)
    if 0 < coefficient < 2 ** 63:
        yield hf_at_case(n, [coefficient], d)
        yield hf_at_case(n, [-coefficient], d)
        yield hf_at_case(n, [coefficient - 1, -1], d)


def hf_at_cases(scale):
    rng = Random(22)
    for _ in range(3000 * scale):
        yield hf_at_case(rng.randint(0, 12), random_coefficients(rng), rng.randint(0, 40))
        yield from at_the_value_bound(rng)
    for n, listed in random_lists(rng, 500 * scale):
        yield hf_at_case(n, meaning.numerator(listed, n), rng.randint(0, 30))
    for n in (0, 1, 2, 254, 255, 256):
        for d in (0, 1, 65535, 65536, 65537, 2 ** 32, 2 ** 64 - 1):
            yield ("hf_at", n, random_coefficients(rng), d, 4 * min(d, 65536) + 4)
    for n in range(60, 70):
        yield from (hf_at_case(n, [1], d) for d in range(60, 70))
    for c in (2 ** 61, 2 ** 61 + 1, -2 ** 61 - 1, 2 ** 63 - 1, -2 ** 63):
        yield from (hf_at_case(n, [c, -1], d) for n in range(4) for d in range(4))


def coefficient_cases(scale):
    rng = Random(23)
    for _ in range(700 * scale):
        given = random_coefficients(rng) + [0] * rng.randint(0, 3)
        yield ("is_zero", given)
        yield ("coeff_degree", given)
        yield ("coeff", given, rng.randint(0, 12))
    for d in (2 ** 32 - 1, 2 ** 32, 2 ** 63, 2 ** 64 - 1):
        yield ("coeff", [1, 2, 3], d)


# Masks.

def mask_cases(scale):
    rng = Random(24)
    for n in range(258):
        for max_deg in (0, 1, 4, 127, 128, 129, 65535):
            length = rng.choice((0, n, max(0, n - 1), n + 3))
            yield ("mask", n, max_deg, [rng.choice((*EXPONENTS, max_deg)) for _ in range(length)])
    for _ in range(1500 * scale):
        n, max_deg = rng.randint(0, 140), rng.choice((0, 1, 2, 5, 30, 100, 1000, 65535))
        yield ("mask", n, max_deg, [rng.randint(0, min(65535, max_deg + 3)) for _ in range(n)])


def consistent_cases(scale):
    rng = Random(25)
    for _ in range(1500 * scale):
        a = [rng.getrandbits(64) & rng.getrandbits(64) for _ in range(2)]
        yield ("consistent", *a, *([x | rng.getrandbits(64) for x in a] if rng.random() < 0.5 else a[::-1]))


# Monomials.

def random_pair(rng, n):
    a = [rng.choice(EXPONENTS) for _ in range(n)]
    b = rng.choice((a, a[::-1], [min(65535, x + rng.randint(0, 1)) for x in a], [rng.choice(EXPONENTS) for _ in range(n)],
                    [65535 - x for x in a]))
    return a, list(b)


def pair_cases(a, b):
    yield from ((call, a, b) for call in MONOMIAL_PAIR_CALLS)
    yield from ((call, a, b, len(a)) for call in MONOMIAL_OUTPUT_CALLS)


def monomial_cases(scale):
    rng = Random(26)
    for a, b in product(product(range(3), repeat=2), repeat=2):
        yield from pair_cases(list(a), list(b))
    for _ in range(1500 * scale):
        a, b = random_pair(rng, rng.choice(WIDTHS) if rng.random() < 0.2 else rng.randint(0, 6))
        yield from pair_cases(a, b)
        yield ("degree", a)
        yield ("exponent", a, rng.randint(0, len(a)))
        yield ("power", len(a), rng.randint(0, len(a)), rng.choice(EXPONENTS), len(a))
    yield from width_cases()


def width_cases():
    """Widths over the limit, and unequal ones."""
    for la, lb, lo in product((0, 1, 2, 255, 256, 300), repeat=3):
        if (la, lb, lo) != (la, la, la) or la > 255:
            a, b = [1] * la, [1] * lb
            yield from ((call, a, b, lo) for call in MONOMIAL_OUTPUT_CALLS)
            yield from ((call, a, b) for call in MONOMIAL_PAIR_CALLS)
            yield ("power", la, lb, 3, lo)


# Rooms.

def room_cases():
    """Rooms one short, exact and one longer, and lists of the wrong size."""
    for n, listed in ((2, TRIANGLE), (1, [(5,), (3,), (3,)]), (2, [(0, 0)]), (0, []), (0, [()]), (3, []), (1, [(1,)])):
        for short in product((1, 0, -1), repeat=3):
            yield numerator_case(n, listed, short)
            yield update_case(n, [1, 0, 0, 0, 0, -1], listed, listed[:1], short)
        for short in product((1, 0, -1), repeat=4):
            yield dimension_case(n, listed, short)
    for n, s, length in product((0, 1, 2, 255, 256, 2 ** 63, 2 ** 64 - 1), (0, 1, 59, 60, 61, 2 ** 63, 2 ** 64 - 1), (0, 1, 2)):
        yield ("numerator", n, s, [1] * length, 9, 9, 9)
        yield ("dimension", n, s, [1] * length, 9, 9, 9, 9)
        yield ("update", n, [1], s, [1] * length, s, [1] * length, 9, 9, 9)
        yield ("write_record", n, s, [1] * length, 9)


def dimension_bounds():
    """D next to 65,536 and the product of all a_v next to 2^127, with the rooms and one short of them."""
    bounds = [[a, 32769] for a in (32769, 32770)] + [[1024] * 12 + [a] for a in (127, 128, 129, 256)]
    for powers in bounds + [[4] * 53 + [a] * 7 for a in (2, 3)]:
        yield dimension_case(len(powers), pure(powers))
        yield dimension_case(len(powers), pure(powers), (1, 1, 1, 1))


# Records.

RECORDED = [(0, []), (0, [()]), (2, TRIANGLE), (255, []), (3, [(65535, 0, 1), (0, 65535, 1)])]


def damaged(record, values):
    """Every byte changed to the values given, every truncation, some extensions."""
    for k in range(len(record)):
        yield from (record[:k] + bytes([value]) + record[k + 1:] for value in values)
    yield from (record[:k] for k in range(len(record)))
    yield from (record + tail for tail in (b"\0", b"\0\0", b"\xff\xff\xff\xff"))


def unsorted_records(rng, count):
    """Records whose list is in any order, with duplicates or divided monomials."""
    for _ in range(count):
        n = rng.randint(0, 3)
        listed = random_list(rng, n, rng.randint(0, 4), 3)
        body = bytes([n, len(listed)]) + b"".join(x.to_bytes(2, "big") for x in flat(listed))
        yield b"\x01" + len(body).to_bytes(4, "big") + body


def records(scale):
    rng = Random(27)
    for n, listed in RECORDED:
        yield from damaged(meaning.ideal_record(listed, n), range(256))
    for n, listed in random_lists(rng, 40 * scale):
        yield from damaged(meaning.ideal_record(listed, n), (0, 1, 2, rng.randrange(256)))
    yield from unsorted_records(rng, 1000 * scale)
    yield from (rng.randbytes(rng.randint(0, 40)) for _ in range(200 * scale))
    yield b"\x01" + (2 + 61 * 2).to_bytes(4, "big") + b"\x01\x3d" + bytes(122)


def record_cases(scale):
    for k, record in enumerate(records(scale)):
        given = list(record)
        yield ("host", given, 26)
        yield ("check_place", given, k % 3)
        yield ("copy_record", given, 12)


def cases(scale):
    for part in (monomial_cases, mask_cases, consistent_cases, coefficient_cases, hf_at_cases, list_cases, update_cases,
                 record_cases):
        yield from part(scale)
    yield from room_cases()
    yield from dimension_bounds()
