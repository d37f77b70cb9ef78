"""The cases of records.txt and host.txt in tests/vectors. A string among them is a comment line."""
from random import Random

import meaning
from cases import flat
from chosen_monomials import WORD_END
from chosen_numbers import STARRED, all_lists, wrong_sizes
from examples import TRIANGLE, pure
from generate import artinian_lists


# records.txt

def record_of(n, listed):
    return list(meaning.ideal_record(listed, n))


def write_case(n, listed, longer=0):
    return ("write_record", n, len(listed), flat(listed), len(record_of(n, listed)) + longer)


LARGEST = 255, pure([1] * 60 + [0] * 195)[:60]


def small_records():
    for n, listed in STARRED[:8] + [(255, []), (2, [(65535, 0), (0, 65535)]), (255, [(1,) * 255])]:
        yield n, record_of(n, listed)


DISORDERED = [
    (2, TRIANGLE[::-1]), (2, TRIANGLE[1:] + TRIANGLE), (3, [(0, 0, 2), (2, 0, 0), (0, 2, 0), (1, 1, 0), (1, 0, 1)]),
    (2, [(3, 3), (1, 2), (2, 1), (3, 0), (0, 9)]), (0, [()] * 60), (2, [(5, 5), (0, 0)]),
    (2, [(65535, 0), (0, 65535)]), (1, [(k,) for k in range(60, 0, -1)]),
]


def writes():
    yield "writing: document 01's examples, any order given, duplicates and divided monomials, output one short and longer"
    for n, listed in STARRED + DISORDERED:
        yield from (write_case(n, listed, longer) for longer in (-1, 0, 4))
    yield write_case(*LARGEST, -1)
    yield write_case(255, LARGEST[1][:20])
    yield write_case(255, [(1,) * 255] * 60)
    yield from wrong_sizes("write_record", 0)


def places():
    yield "places below m and not below m; with m = 0 every place is refused; n = 0 has an empty part"
    for n, record in small_records():
        m = record[6]
        for k in sorted({0, max(0, m - 1), m, WORD_END}):
            yield "check_place", record, k
        yield "place", record, 0, 510
        yield "place", record, m, 510
    yield "place", record_of(2, TRIANGLE), 2, 511
    yield "place", record_of(2, TRIANGLE), 0, 509
    yield "place", [1, 2, 3], 0, 509
    yield "place", [1, 2, 3], 0, 510
    yield "place", record_of(2, TRIANGLE) + [0], 0, 510
    yield "place", record_of(2, TRIANGLE)[:-1], 9, 510
    yield "check_place", record_of(*LARGEST), 59
    yield "copying into cells that are one short, exact and longer"
    for n, record in small_records():
        yield from (("copy_record", record, max(0, n * record[6] + longer)) for longer in (-1, 0, 3))


def damages(record):
    """Every byte changed, every truncation, and bytes behind the end."""
    yield from (record[:k] + [(byte + 1) % 256] + record[k + 1:] for k, byte in enumerate(record))
    yield from (record[:k] for k in range(len(record)))
    yield record + [0]
    yield record + [0, 0]


ILL_FORMED = [
    (2, TRIANGLE[::-1]), (2, [(2, 0), (2, 0)]), (2, [(3, 0), (2, 0)]), (2, [(0, 3), (1, 1), (3, 0)]),
    (1, [(0,), (0,)]), (1, [(3,), (5,)]), (0, [(), ()]), (61, pure([1] * 61)),
]


def ill_formed():
    """Lists in wrong order, with a double or divided monomial, and too many."""
    for n, listed in ILL_FORMED:
        body = [n, len(listed), *(byte for x in flat(listed) for byte in divmod(x, 256))]
        yield [1, *len(body).to_bytes(4, "big"), *body]


def records():
    yield from writes()
    yield from places()
    yield "bytes that are not a record, and 12 before the other refusals"
    for record in list(damages(record_of(2, TRIANGLE))) + list(damages(record_of(0, [()]))) + list(ill_formed()):
        yield "check_place", record, 0
    for record in ill_formed():
        yield "check_place", record, WORD_END
        yield "copy_record", record, 0


# host.txt

HOST_POWERS = [
    [2] * 20, [2] * 21, [2048], [2049], [4095], [4096], [2000, 49], [2000, 50], [2048, 2047], [2048, 2048], [32769, 32769],
    [32770, 32769], [1024] * 12 + [127], [1024] * 12 + [128], [1024] * 12 + [256], [16] * 16,
]


def cells_exactly_lent():
    """32 monomials in 4 variables with 96 pairs of variable and exponent: 4 * 32 * (32 + 96) cells are the 16,384 of `dim`."""
    between = [(k, 24 - k, k, 24 - k) for k in range(1, 24)] + [(k, 24 - k, k - 1, 25 - k) for k in range(2, 7)]
    return pure([25, 24, 24, 24]) + between


def hosts():
    yield "document 01's examples and named lists"
    for n, listed in list(all_lists()) + [(255, [])]:
        if len(meaning.ideal_record(listed, n)) < 10000:
            yield "host", record_of(n, listed), 26
    yield "the rooms of dim: 16,384 cells, 4,096 coefficients twice, 4,096 words"
    for powers in HOST_POWERS:
        yield "host", record_of(len(powers), pure(powers)), 26
    yield "host", record_of(4, cells_exactly_lent()), 26
    yield "host", record_of(4, cells_exactly_lent()[:-1] + [(24, 1, 1, 22)]), 26
    yield "host", record_of(*LARGEST), 26
    yield "outputs under 26 bytes are 14 even with bad bytes; bytes past 26 are kept"
    for record in (record_of(2, TRIANGLE), record_of(2, []), [9, 9, 9], []):
        yield from (("host", record, length) for length in (0, 25, 26, 27, 40))
    yield "bytes that are not a record"
    yield from (("host", record, 26) for record in list(damages(record_of(2, TRIANGLE))) + list(ill_formed()))
    yield "a sample of random lists"
    yield from (("host", record_of(n, listed), 26) for n, listed in artinian_lists(Random(33), 25))
