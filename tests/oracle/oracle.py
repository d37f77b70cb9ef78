#!/usr/bin/env python3
"""The public calls by document 01 alone: every refusal in its order, the values by definition, and what the lent cells hold.

Each call returns its number and its values; the values are empty where the number is not 0. Lent outputs and rooms are Python
lists, changed in place as 01 says. `--self-test` runs 01's examples."""
import sys
from math import prod

import meaning

WIDEST = 255
MOST_LISTED = meaning.MOST_LISTED
HIGHEST = 65536
LARGEST_EXPONENT = 65535
LARGEST_GIVEN = 2 ** 61
VALUE_BOUND = 2 ** 127
ANSWER_BYTES = 26
PLACE_BYTES = 510

DIM_CELLS = 16384
DIM_COEFFICIENTS = 4096
DIM_WORDS = 4096


def done(*values):
    return 0, values


def refusal(number):
    return number, ()


def clear(room, asked):
    room[:asked] = [0] * asked


def write(output, values):
    output[:len(values)] = values


# Monomials. The width is the number given, or else the first monomial's length.

def width_refusal(n, *others):
    """1, then 3; 0 where neither holds."""
    if n > WIDEST:
        return 1
    return 3 if any(len(other) != n for other in others) else 0


def degree(a):
    if number := width_refusal(len(a)):
        return refusal(number)
    return done(meaning.degree(a))


def exponent(a, v):
    if number := width_refusal(len(a)):
        return refusal(number)
    if v >= len(a):
        return refusal(4)
    return done(a[v])


def power(n, v, x, out):
    if number := width_refusal(n, out):
        return refusal(number)
    if v >= n:
        return refusal(4)
    write(out, [x if k == v else 0 for k in range(n)])
    return done()


def product(a, b, out):
    if number := width_refusal(len(a), b, out):
        return refusal(number)
    result = [x + y for x, y in zip(a, b)]
    if any(x > LARGEST_EXPONENT for x in result):
        return refusal(5)
    write(out, result)
    return done()


def quotient(a, b, out):
    if number := width_refusal(len(a), b, out):
        return refusal(number)
    if not meaning.divides(b, a):
        return refusal(6)
    write(out, [x - y for x, y in zip(a, b)])
    return done()


def lcm(a, b, out):
    if number := width_refusal(len(a), b, out):
        return refusal(number)
    write(out, meaning.lcm(a, b))
    return done()


def gcd(a, b, out):
    if number := width_refusal(len(a), b, out):
        return refusal(number)
    write(out, meaning.gcd(a, b))
    return done()


def divides(a, b):
    if number := width_refusal(len(a), b):
        return refusal(number)
    return done(int(meaning.divides(a, b)))


def coprime(a, b):
    if number := width_refusal(len(a), b):
        return refusal(number)
    return done(int(meaning.is_coprime(a, b)))


def lex(a, b):
    if number := width_refusal(len(a), b):
        return refusal(number)
    return done(meaning.lex(a, b) + 1)


def degrevlex(a, b):
    if number := width_refusal(len(a), b):
        return refusal(number)
    return done(meaning.degrevlex(a, b) + 1)


def mask(n, max_deg, exponents):
    if n > WIDEST:
        return refusal(1)
    return done(meaning.mask(n, max_deg, exponents))


def consistent(a_low, a_high, b_low, b_high):
    return done(int(meaning.consistent(a_low + (a_high << 64), b_low + (b_high << 64))))


# Coefficient lists, of any length.

def is_zero(coefficients):
    return done(int(not any(coefficients)))


def coeff_degree(coefficients):
    length = len(meaning.trimmed(coefficients))
    return done(1, length - 1) if length else done(0, 0)


def coeff(coefficients, d):
    return done(coefficients[d] if d < len(coefficients) else 0)


# Numbers.

def list_refusal(n, s, cells):
    if n > WIDEST:
        return 1
    if s > MOST_LISTED:
        return 2
    return 3 if len(cells) != s * n else 0


def asked_cells(listed, n):
    s = len(listed)
    return s * n * (s + meaning.pairs(listed))


def asked_coefficients(listed, n):
    return 1 + meaning.lcm_degree(listed, n)


def coefficient_answer(coefficients, asked, first, second):
    clear(first, asked)
    clear(second, asked)
    write(first, coefficients)
    return done(len(coefficients))


def numerator(n, s, cells, room, first, second):
    if number := list_refusal(n, s, cells):
        return refusal(number)
    listed = meaning.monomials_of(cells, n, s)
    asked = asked_coefficients(listed, n)
    if len(room) < asked_cells(listed, n):
        return refusal(7)
    if len(first) < asked or len(second) < asked:
        return refusal(8)
    clear(room, asked_cells(listed, n))
    return coefficient_answer(meaning.numerator(listed, n), asked, first, second)


def update_refusal(n, given, s0, existing, s1, added):
    if n > WIDEST:
        return 1
    if s0 + s1 > MOST_LISTED:
        return 2
    if len(existing) != s0 * n or len(added) != s1 * n:
        return 3
    return 15 if any(abs(c) > LARGEST_GIVEN for c in given) else 0


def update(n, given, s0, existing, s1, added, room, first, second):
    if number := update_refusal(n, given, s0, existing, s1, added):
        return refusal(number)
    old, new = meaning.monomials_of(existing, n, s0), meaning.monomials_of(added, n, s1)
    asked = max(asked_coefficients(old + new, n), len(given))
    if len(room) < asked_cells(old + new, n):
        return refusal(7)
    if len(first) < asked or len(second) < asked:
        return refusal(8)
    clear(room, asked_cells(old + new, n))
    return coefficient_answer(meaning.updated(given, old, new, n), asked, first, second)


def hf_at(n, coefficients, d, sums):
    if n > WIDEST:
        return refusal(1)
    if d > HIGHEST:
        return refusal(10)
    if len(sums) < 4 * (d + 1):
        return refusal(9)
    clear(sums, 4 * (d + 1))
    if n and meaning.binomial_sum([abs(c) for c in coefficients], n, d) >= VALUE_BOUND:
        return refusal(11)
    return done(meaning.binomial_sum(coefficients, n, d))


def dimension_refusal(listed, n, powers, room, first, second, sums):
    if None in powers or meaning.top_degree(powers) > HIGHEST:
        return 13
    if prod(powers) >= VALUE_BOUND:
        return 11
    if len(room) < asked_cells(listed, n):
        return 7
    if min(len(first), len(second)) < asked_coefficients(listed, n):
        return 8
    return 9 if len(sums) < 2 * (meaning.top_degree(powers) + 1) else 0


def dimension(n, s, cells, room, first, second, sums):
    """The values are the dimension and the top degree."""
    if number := list_refusal(n, s, cells):
        return refusal(number)
    listed = meaning.monomials_of(cells, n, s)
    if any(meaning.is_unit(m) for m in listed):
        return done(0, 0)
    if n == 0:
        return done(1, 0)
    powers = meaning.pure_powers(listed, n)
    if number := dimension_refusal(listed, n, powers, room, first, second, sums):
        return refusal(number)
    top = meaning.top_degree(powers)
    clear(room, asked_cells(listed, n))
    clear(first, asked_coefficients(listed, n))
    clear(second, asked_coefficients(listed, n))
    clear(sums, 2 * (top + 1))
    return done(meaning.dimension(listed, n), top)


# Records.

def write_record(n, s, cells, out):
    if number := list_refusal(n, s, cells):
        return refusal(number)
    record = meaning.ideal_record(meaning.monomials_of(cells, n, s), n)
    if len(out) < len(record):
        return refusal(14)
    write(out, record)
    return done(len(record))


def check_place(record, k):
    if not meaning.is_record(bytes(record)):
        return refusal(12)
    return refusal(4) if k >= record[6] else done()


def part(record, k):
    """The exponent bytes of monomial k, empty where the check refuses."""
    if check_place(record, k) != done():
        return []
    n = record[5]
    return list(record[7 + 2 * n * k:7 + 2 * n * (k + 1)])


def place(record, k, out):
    """The part copied to the front of an output, which has room for the longest part or is refused before all else."""
    if len(out) < PLACE_BYTES:
        return refusal(14)
    number, _ = check_place(record, k)
    if number:
        return refusal(number)
    write(out, part(record, k))
    return done(len(part(record, k)))


def copy_record(record, cells):
    if not meaning.is_record(bytes(record)):
        return refusal(12)
    n, listed = meaning.parsed(record)
    if len(cells) < n * len(listed):
        return refusal(14)
    write(cells, [x for m in listed for x in m])
    return done(n, len(listed))


def dimension_of_record(record):
    """The dimension in the rooms of `dim`; the record's own list is in none of them."""
    if not meaning.is_record(bytes(record)):
        return refusal(12)
    n, listed = meaning.parsed(record)
    cells = [x for m in listed for x in m]
    return dimension(n, len(listed), cells, [0] * DIM_CELLS, [0] * DIM_COEFFICIENTS, [0] * DIM_COEFFICIENTS, [0] * DIM_WORDS)


def host(record, out):
    """The answer record carries every refusal but 14."""
    if len(out) < ANSWER_BYTES:
        return refusal(14)
    number, values = dimension_of_record(record)
    write(out, meaning.answer_record(number, *(values or (0, 0))))
    return number, ()


if __name__ == "__main__":
    if sys.argv[1:] != ["--self-test"]:
        sys.exit("usage: oracle.py --self-test")
    import examples
    sys.exit(examples.main())
