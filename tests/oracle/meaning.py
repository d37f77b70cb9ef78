"""What the calls answer, by definition: slow, over unbounded integers, from document 01 alone.

monomial           == a tuple of exponents, as many as its width
list               == a sequence of monomials of one width n
degree, lcm, gcd, divides, is_multiple
lex, degrevlex     == -1 less, 0 equal, 1 greater
minimal            == the minimal monomials of a list, each once, DegRevLex greatest first
numerator          == the sum over all subsets of (-1)^size t^(degree of their lcm), trimmed
count_at           == HF(d) by going through all monomials of degree d
series             == the coefficients 0..d of N/(1-t)^n
binomial_sum       == the sum over k <= d of N_k C(d-k+n-1, n-1); N_d for n = 0
pure_powers        == a_v for each variable, None where there is no pure power
top_degree         == D, the sum of all a_v - 1
standard           == the monomials that are no multiple, for a list with all pure powers
pairs              == e, the number of different pairs (variable, nonzero exponent)
lcm_degree         == the degree of the lcm of all listed
mask               == the divisibility mask, a number of 128 bits
ideal_record, answer_record, parsed, is_record
"""
from functools import cmp_to_key
from itertools import accumulate, product
from math import comb, prod

VERSION = 1
MOST_LISTED = 60

# Up to so many candidates a dimension is counted by listing, above by summing HF.
FEW = 2000


def degree(a):
    return sum(a)


def lcm(a, b):
    return tuple(map(max, a, b))


def gcd(a, b):
    return tuple(map(min, a, b))


def divides(a, b):
    return all(x <= y for x, y in zip(a, b))


def is_coprime(a, b):
    return all(x == 0 or y == 0 for x, y in zip(a, b))


def is_unit(a):
    return not any(a)


def is_multiple(a, listed):
    return any(divides(m, a) for m in listed)


def sign(x, y):
    return (x > y) - (x < y)


def lex(a, b):
    return sign(a, b)


def degrevlex(a, b):
    if degree(a) != degree(b):
        return sign(degree(a), degree(b))
    for x, y in zip(reversed(a), reversed(b)):
        if x != y:
            return sign(y, x)
    return 0


def minimal(listed):
    different = set(listed)
    kept = [m for m in different if not any(k != m and divides(k, m) for k in different)]
    return sorted(kept, key=cmp_to_key(degrevlex), reverse=True)


def within_used(listed, n):
    """The list in the variables that it uses; no degree changes."""
    used = [v for v in range(n) if any(m[v] for m in listed)]
    return [tuple(m[v] for v in used) for m in listed], len(used)


def signed_lcms(listed, n):
    """For each monomial, the sum of (-1)^size over the subsets of the list whose lcm it is; zero sums left out."""
    sums = {(0,) * n: 1}
    for m in listed:
        for joined, c in [(lcm(k, m), -c) for k, c in sums.items()]:
            sums[joined] = sums.get(joined, 0) + c
            if sums[joined] == 0:
                del sums[joined]
    return sums


def blocks(listed):
    """The list in parts, two of which never have a variable in common."""
    parts = []
    for m in listed:
        support = {v for v, x in enumerate(m) if x}
        touched = [part for part in parts if part[0] & support]
        parts = [part for part in parts if not part[0] & support]
        parts.append((support.union(*(s for s, _ in touched)), [k for _, ms in touched for k in ms] + [m]))
    return [members for _, members in parts]


def subset_sum(listed, n):
    """The subset sum as a dictionary from degree to coefficient."""
    polynomial = {}
    for m, c in signed_lcms(*within_used(listed, n)).items():
        polynomial[degree(m)] = polynomial.get(degree(m), 0) + c
    return polynomial


def times(p, q):
    result = {}
    for i, a in p.items():
        for j, b in q.items():
            result[i + j] = result.get(i + j, 0) + a * b
    return {d: c for d, c in result.items() if c}


def trimmed(coefficients):
    length = len(coefficients)
    while length and coefficients[length - 1] == 0:
        length -= 1
    return list(coefficients[:length])


def numerator(listed, n):
    """The sum over the subsets of two lists without a common variable is the product of both sums: the lcm's degree adds."""
    polynomial = {0: 1}
    for part in blocks(listed):
        polynomial = times(polynomial, subset_sum(part, n))
    coefficients = [0] * (1 + max(polynomial, default=-1))
    for d, c in polynomial.items():
        coefficients[d] = c
    return trimmed(coefficients)


def added(p, q, factor=1):
    length = max(len(p), len(q))
    return [(p[k] if k < len(p) else 0) + factor * (q[k] if k < len(q) else 0) for k in range(length)]


def updated(given, existing, new, n):
    both = numerator(list(existing) + list(new), n)
    return trimmed(added(added(given, both), numerator(existing, n), -1))


def monomials_of_degree(n, d):
    if n == 0:
        if d == 0:
            yield ()
        return
    for x in range(d + 1):
        for rest in monomials_of_degree(n - 1, d - x):
            yield (x, *rest)


def count_at(listed, n, d):
    return sum(not is_multiple(m, listed) for m in monomials_of_degree(n, d))


def series(coefficients, n, d):
    sums = [coefficients[k] if k < len(coefficients) else 0 for k in range(d + 1)]
    for _ in range(n):
        sums = list(accumulate(sums))
    return sums


def binomial_sum(coefficients, n, d):
    if n == 0:
        return coefficients[d] if d < len(coefficients) else 0
    return sum(c * comb(d - k + n - 1, n - 1) for k, c in enumerate(coefficients[:d + 1]) if c)


def pure_powers(listed, n):
    powers = [None] * n
    for m in listed:
        support = [v for v in range(n) if m[v]]
        if len(support) == 1:
            v = support[0]
            powers[v] = m[v] if powers[v] is None else min(powers[v], m[v])
    return powers


def top_degree(powers):
    return sum(a - 1 for a in powers)


def standard(listed, powers):
    return [m for m in product(*(range(a) for a in powers)) if not is_multiple(m, listed)]


def dimension_by_listing(listed, n):
    return len(standard(listed, pure_powers(listed, n)))


def dimension_by_sum(listed, n):
    return sum(series(numerator(listed, n), n, top_degree(pure_powers(listed, n))))


def dimension(listed, n):
    if prod(pure_powers(listed, n)) <= FEW:
        return dimension_by_listing(listed, n)
    return dimension_by_sum(listed, n)


def pairs(listed):
    return len({(v, x) for m in listed for v, x in enumerate(m) if x})


def lcm_degree(listed, n):
    joined = (0,) * n
    for m in listed:
        joined = lcm(joined, m)
    return degree(joined)


def mask(n, max_deg, exponents):
    if n == 0:
        return 0
    bits = max(128 // n, 1)
    used = min(n * bits, 128) // bits
    largest = max(max_deg, 1)
    result = 0
    for v in range(used):
        exponent = exponents[v] if v < len(exponents) else 0
        for k in range(bits):
            if exponent > (k + 1) * largest // bits:
                result |= 1 << (v * bits + k)
    return result


def consistent(a, b):
    return a & ~b == 0


def monomials_of(cells, n, s):
    return [tuple(cells[k * n:(k + 1) * n]) for k in range(s)]


def ideal_record(listed, n):
    kept = minimal(listed)
    body = bytes([n, len(kept)]) + b"".join(x.to_bytes(2, "big") for m in kept for x in m)
    return bytes([VERSION]) + len(body).to_bytes(4, "big") + body


def answer_record(status, value, top):
    body = bytes([status]) + value.to_bytes(16, "big") + top.to_bytes(4, "big")
    return bytes([VERSION]) + len(body).to_bytes(4, "big") + body


def parsed(record):
    """Width and list of a record's exponent bytes, or None where its size does not fit its width and count."""
    if len(record) < 7 or len(record) != 7 + 2 * record[5] * record[6]:
        return None
    n, m = record[5], record[6]
    cells = [int.from_bytes(record[k:k + 2], "big") for k in range(7, len(record), 2)]
    return n, monomials_of(cells, n, m)


def is_record(record):
    """A record is what the writer writes of some list."""
    found = parsed(record)
    if found is None:
        return False
    n, listed = found
    return len(listed) <= MOST_LISTED and ideal_record(listed, n) == bytes(record)
