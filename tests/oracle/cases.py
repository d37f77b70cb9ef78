"""A case is a call's name and its arguments in order; a lent output or room stands as its length alone.

run      == the case through the Python oracle, on cells filled with the pattern
line     == the case and its answer as a line of tests/vectors (the format is in tests/vectors/README.md)
request  == the case as a request to the Rust driver (the protocol is in tests/oracle/README.md)
expected == the driver's answer that agrees with the outcome, or None where the Rust has no such answer
"""
from collections import namedtuple

import meaning
import oracle

# The kinds of argument: n a number, l a list, o a lent output that is written, r a lent room.
Call = namedtuple("Call", "code kinds words")
Outcome = namedtuple("Outcome", "number values lent")

# `words` is how many 64-bit words each value takes.
CALLS = {
    "degree": Call(1, "l", (1,)),
    "exponent": Call(2, "ln", (1,)),
    "power": Call(3, "nnno", ()),
    "product": Call(4, "llo", ()),
    "quotient": Call(5, "llo", ()),
    "lcm": Call(6, "llo", ()),
    "gcd": Call(7, "llo", ()),
    "divides": Call(8, "ll", (1,)),
    "coprime": Call(9, "ll", (1,)),
    "lex": Call(10, "ll", (1,)),
    "degrevlex": Call(11, "ll", (1,)),
    "mask": Call(12, "nnl", (2,)),
    "consistent": Call(13, "nnnn", (1,)),
    "numerator": Call(21, "nnlrrr", (1,)),
    "update": Call(22, "nlnlnlrrr", (1,)),
    "hf_at": Call(23, "nlnr", (2,)),
    "dimension": Call(24, "nnlrrrr", (2, 1)),
    "is_zero": Call(25, "l", (1,)),
    "coeff_degree": Call(26, "l", (1, 1)),
    "coeff": Call(27, "ln", (1,)),
    "write_record": Call(31, "nnlo", (1,)),
    "check_place": Call(32, "ln", ()),
    "place": Call(33, "lno", (1,)),
    "copy_record": Call(34, "lo", (1, 1)),
    "host": Call(41, "lo", ()),
}


def pattern(length):
    return [7 + j % 5 for j in range(length)]


def run(case):
    name, *arguments = case
    given = [pattern(x) if kind in "or" else x for kind, x in zip(CALLS[name].kinds, arguments)]
    number, values = getattr(oracle, name)(*given)
    return Outcome(number, values, [x for kind, x in zip(CALLS[name].kinds, given) if kind in "or"])


def prefixed(values):
    return [len(values), *values]


def argument_tokens(case, kinds_left_out=""):
    name, *arguments = case
    tokens = []
    for kind, x in zip(CALLS[name].kinds, arguments):
        if kind not in kinds_left_out:
            tokens += prefixed(x) if kind == "l" else [x]
    return tokens


def value_words(name, values):
    return [value >> 64 * k & 2 ** 64 - 1 for value, count in zip(values, CALLS[name].words) for k in range(count)]


def coefficients(outcome):
    """The coefficients of a numerator or update: the front of the first coefficient room."""
    return outcome.lent[1][:outcome.values[0]]


def asked_coefficients(case):
    name, n, *rest = case
    if name == "numerator":
        s, cells = rest[:2]
        return oracle.asked_coefficients(meaning.monomials_of(cells, n, s), n)
    given, s0, existing, s1, added = rest[:5]
    return max(len(given), oracle.asked_coefficients(meaning.monomials_of(existing + added, n, s0 + s1), n))


def answer_tokens(case, outcome):
    name = case[0]
    if name == "host":
        return [outcome.number, *prefixed(outcome.lent[0])]
    if outcome.number:
        return [outcome.number]
    if name in ("numerator", "update"):
        return [0, asked_coefficients(case), *prefixed(coefficients(outcome))]
    tokens = [0, *value_words(name, outcome.values)]
    return tokens + (prefixed(outcome.lent[0]) if "o" in CALLS[name].kinds else [])


def line(case):
    tokens = [CALLS[case[0]].code, *argument_tokens(case), *answer_tokens(case, run(case))]
    return " ".join(map(str, tokens))


def request(case):
    if case[0] == "update":
        # The coefficients that picus holds are always trimmed.
        name, n, given, *rest = case
        case = (name, n, meaning.trimmed(given), *rest)
    return " ".join(map(str, [case[0], *argument_tokens(case, "or")]))


# The numbers that the Rust has too, in its own form.
RUST_REFUSALS = {("dimension", 13): "none", ("exponent", 4): "panic", ("power", 4): "panic", ("product", 5): "panic",
                 ("quotient", 6): "panic"}


def expected(case, outcome):
    name = case[0]
    if outcome.number:
        return RUST_REFUSALS.get((name, outcome.number))
    if name in ("numerator", "update"):
        tokens = prefixed(coefficients(outcome))
    elif name == "coeff_degree":
        tokens = outcome.values[1:] if outcome.values[0] else None
    elif "o" in CALLS[name].kinds:
        tokens = prefixed(outcome.lent[0])
    else:
        tokens = outcome.values[:1]
    return "none" if tokens is None else " ".join(map(str, ["ok", *tokens]))


def flat(listed):
    return [x for m in listed for x in m]


def numerator_case(n, listed, short=(0, 0, 0)):
    """A numerator with exactly the rooms asked, each shorter by what is given."""
    coefficient_room = oracle.asked_coefficients(listed, n)
    rooms = [oracle.asked_cells(listed, n), coefficient_room, coefficient_room]
    return ("numerator", n, len(listed), flat(listed), *shortened(rooms, short))


def update_case(n, given, existing, added, short=(0, 0, 0)):
    listed = existing + added
    coefficient_room = max(len(given), oracle.asked_coefficients(listed, n))
    rooms = [oracle.asked_cells(listed, n), coefficient_room, coefficient_room]
    return ("update", n, list(given), len(existing), flat(existing), len(added), flat(added), *shortened(rooms, short))


def dimension_case(n, listed, short=(0, 0, 0, 0)):
    powers = meaning.pure_powers(listed, n)
    top = 0 if None in powers else meaning.top_degree(powers)
    coefficient_room = oracle.asked_coefficients(listed, n)
    rooms = [oracle.asked_cells(listed, n), coefficient_room, coefficient_room, 2 * (top + 1)]
    return ("dimension", n, len(listed), flat(listed), *shortened(rooms, short))


def hf_at_case(n, coefficients_given, d, short=0):
    return ("hf_at", n, list(coefficients_given), d, max(0, 4 * (d + 1) - short))


def shortened(rooms, short):
    return [max(0, room - less) for room, less in zip(rooms, short)]
