"""The cases of monomials.txt, masks.txt and coefficients.txt in tests/vectors. A string among them is a comment line."""

WORD_END = 2 ** 64 - 1
OUTPUT_CALLS = ("product", "quotient", "lcm", "gcd")
PAIR_CALLS = ("divides", "coprime", "lex", "degrevlex")


def all_pair_calls(a, b):
    for call in OUTPUT_CALLS:
        yield call, a, b, len(a)
    for call in PAIR_CALLS:
        yield call, a, b


# monomials.txt

def monomials():
    yield "no variables, one variable, and the ends of an exponent"
    for a, b in (([], []), ([0], [0]), ([2, 0], [1, 1]), ([1, 2, 3], [3, 2, 1]), ([65535, 0], [0, 65535]), ([5, 4, 9], [5, 3, 0])):
        yield from all_pair_calls(a, b)
    yield from single_monomials()
    yield "a product's exponent at and above 65,535, also in the last variable alone"
    for a, b in (([65534], [1]), ([65535], [0]), ([65535], [1]), ([1, 2, 65535], [1, 1, 1]), ([65535, 0], [65535, 0])):
        yield "product", a, b, len(a)
    yield "a divisor that divides, and one that does not in the last variable alone"
    for a, b in (([3, 3, 3], [3, 3, 3]), ([3, 3, 3], [1, 0, 4]), ([0], [1]), ([65535], [65535])):
        yield "quotient", a, b, len(a)
        yield "divides", b, a
    yield from orders()
    yield from widths()


def single_monomials():
    yield "one monomial: degree, a variable below n and not below n"
    for a in ([], [7], [1, 2, 3], [65535] * 3, [65535] * 255):
        yield "degree", a
        yield from (("exponent", a, v) for v in (0, len(a) - 1, len(a), WORD_END) if v >= 0)
    for n, v, x in ((1, 0, 0), (3, 0, 65535), (3, 2, 5), (3, 3, 5), (0, 0, 1), (255, 254, 9), (255, 255, 9), (3, WORD_END, 1)):
        yield "power", n, v, x, n


def orders():
    yield "orders: ties broken from the last variable, the smaller exponent there being the greater monomial"
    for a, b in (([1, 0, 2], [0, 3, 0]), ([2, 0, 1], [1, 2, 0]), ([0, 2, 0], [1, 0, 1]), ([3, 0], [0, 2]), ([1, 1, 1], [1, 1, 1])):
        for call in ("lex", "degrevlex"):
            yield call, a, b
            yield call, b, a


def widths():
    yield "widths of 255 and above, and unequal ones; the first monomial's decides on 1"
    yield from all_pair_calls([1] * 255, [2] * 255)
    yield from all_pair_calls([1] * 256, [2] * 256)
    for length in (255, 256, 300):
        yield "degree", [1] * length
        yield "exponent", [1] * length, 254
        yield "exponent", [1] * length, 256
    for a, b in (([1] * 3, [1] * 300), ([1] * 300, [1] * 3), ([1, 1], [1, 1, 1]), ([1], [])):
        yield from all_pair_calls(a, b)
    yield "an output that is too long or too short"
    for call in OUTPUT_CALLS:
        yield call, [1, 1], [1, 1], 3
        yield call, [1, 1], [1, 1], 1
    yield "product", [65535], [1], 2
    yield "quotient", [0], [1], 0
    for n, v, length in ((256, 0, 256), (256, 256, 0), (255, 0, 256), (2, 0, 3), (2, 2, 1), (WORD_END, 0, 0), (0, 0, 0)):
        yield "power", n, v, 1, length


# masks.txt

def masks():
    yield "document 01: thresholds 2 and 4, exponent 3 in variable 32 sets bit 64 only"
    yield "mask", 64, 4, [0] * 32 + [3] + [0] * 31
    yield "mask", 64, 4, [0] * 32 + [3]
    yield "every width class, with exponents at, below and above thresholds"
    for n in (1, 2, 3, 5, 42, 43, 63, 65, 127, 128, 129, 254, 255):
        for max_deg in (0, 1, 4, 200, 65535):
            yield "mask", n, max_deg, [(v * 37 + max_deg // 2) % (max_deg + 3) % 65536 for v in range(n)]
    yield "no variables, exponents missing and past n, widths above 255"
    yield "mask", 0, 3, []
    yield "mask", 0, 3, [5, 5]
    yield "mask", 2, 3, [5]
    yield "mask", 2, 3, [5, 5, 5]
    yield "mask", 128, 0, [65535] * 128
    yield from (("mask", n, 3, [1]) for n in (255, 256, 300, 2 ** 63, WORD_END))
    yield "consistency"
    for a, b in ((0, 0), (1, 1), (1, 3), (3, 1), (2 ** 127, 2 ** 127), (2 ** 127, 2 ** 126), (2 ** 64, 1), (1, 2 ** 64),
                 (2 ** 128 - 1, 2 ** 128 - 1), (2 ** 128 - 1, 2 ** 128 - 2), (0, 2 ** 128 - 1)):
        yield "consistent", a % 2 ** 64, a >> 64, b % 2 ** 64, b >> 64


# coefficients.txt

def coefficients():
    ends = [2 ** 63 - 1, -2 ** 63]
    for given in ([], [0], [0, 0, 0], [1], [-1], [0, 0, 5, 0], [1, 0, -3, 2], ends, [0] * 40 + [-7] + [0] * 9, [0] * 300):
        yield "is_zero", given
        yield "coeff_degree", given
        yield from (("coeff", given, d) for d in sorted({0, 1, max(0, len(given) - 1), len(given), 40, 2 ** 32, WORD_END}))
