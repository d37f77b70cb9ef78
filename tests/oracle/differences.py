#!/usr/bin/env python3
"""Measures the rows of docs/DIFFERENCES.md: an input, the Rust's answers plain and noted, and the answer by 01.

differences.py          prints the rows (build first: tests/oracle/build)
differences.py --check  compares them with the rows in docs/DIFFERENCES.md; the last line is "N passed, M failed"
"""
import pathlib
import sys
from itertools import combinations

import cases
from cases import dimension_case, hf_at_case, numerator_case, update_case
from compare import rust_answers
from examples import TRIANGLE, pure
from generate import edges

DOCUMENT = pathlib.Path(__file__).resolve().parent.parent.parent / "docs" / "DIFFERENCES.md"
LONGEST_SHOWN = 12


def few_left():
    """Eleven pure powers 2990 and all but six products of two variables: 60 monomials."""
    left = [(v, v + 1) for v in range(6)]
    return pure([2990] * 11) + edges(11, [pair for pair in combinations(range(11), 2) if pair not in left])


CLAMPS = [
    ("`hf_at` of [1], n = 62, d = 64", hf_at_case(62, [1], 64)),
    ("`hf_at` of [1], n = 66, d = 65", hf_at_case(66, [1], 65)),
    ("dimension, 59 squares in 59 variables", dimension_case(59, pure([2] * 59))),
    ("dimension, 60 squares in 60 variables", dimension_case(60, pure([2] * 60))),
    ("dimension, pure powers 6554 in 10 variables", dimension_case(10, pure([6554] * 10))),
    ("dimension, pure powers, twelve 1024 and one 127", dimension_case(13, pure([1024] * 12 + [127]))),
]

LIMITS = [
    ("`hf_at` of [1], n = 67, d = 65", hf_at_case(67, [1], 65)),
    ("`hf_at` of [2^62, −2^62], n = 35, d = 34", hf_at_case(35, [2 ** 62, -2 ** 62], 34)),
    ("dimension, pure powers, twelve 1024 and one 128", dimension_case(13, pure([1024] * 12 + [128]))),
    ("dimension, pure powers 2990 in 11 variables and all x_i·x_j but six", dimension_case(11, few_left())),
    ("`hf_at` of [1], n = 1, d = 65,537", hf_at_case(1, [1], 65537)),
    ("numerator, n = 1, (1) 61 times", numerator_case(1, [(1,)] * 61)),
    ("numerator, the 67 variables, largest coefficient", numerator_case(67, pure([1] * 67))),
    ("degree of 256 ones", ("degree", [1] * 256)),
    ("mask, n = 256, max_deg 1, exponents (2)", ("mask", 256, 1, [2])),
    ("`hf_at` of [1], n = 256, d = 1", hf_at_case(256, [1], 1)),
    ("update, n = 0, G = [2^61 + 1], nothing listed", update_case(0, [2 ** 61 + 1], [], [])),
    ("update, n = 0, G = [−2^63], new unit", update_case(0, [-2 ** 63], [], [()])),
]

PANICS = [
    ("product (65535)·(1)", ("product", [65535], [1], 1)),
    ("quotient (2)/(3)", ("quotient", [2], [3], 1)),
    ("exponent of variable 1 in (7)", ("exponent", [7], 1)),
    ("power, n = 1, variable 1", ("power", 1, 1, 1, 1)),
    ("product (1)·(1,1)", ("product", [1], [1, 1], 1)),
    ("quotient (2)/(1,0)", ("quotient", [2], [1, 0], 1)),
    ("lcm of (1) and (1,1)", ("lcm", [1], [1, 1], 1)),
    ("gcd of (1) and (1,1)", ("gcd", [1], [1, 1], 1)),
    ("(5) divides (5,1)", ("divides", [5], [5, 1])),
    ("(0) and (1,1) coprime", ("coprime", [0], [1, 1])),
    ("Lex of (1) and (1,5)", ("lex", [1], [1, 5])),
    ("DegRevLex of (1,0) and (1)", ("degrevlex", [1, 0], [1])),
    ("coefficient 2^32 of [1]", ("coeff", [1], 2 ** 32)),
]

ALIKE = [
    ("update, n = 1, G = [5], existing (5), new (3)", update_case(1, [5], [(5,)], [(3,)])),
    ("numerator of (2,0)(1,1)(0,2)", numerator_case(2, TRIANGLE)),
    ("mask, n = 1, max_deg 128, exponents (128)", ("mask", 1, 128, [128])),
    ("mask, n = 255, max_deg 1, exponent 2 in variables 127 and 128", ("mask", 255, 1, [0] * 127 + [2, 2])),
    ("dimension of (32769,0)(0,32769)", dimension_case(2, pure([32769, 32769]))),
    ("dimension of (32770,0)(0,32769)", dimension_case(2, pure([32770, 32769]))),
]


def shown(tokens):
    """A list after its length in brackets, its largest where it is long; one value as it is."""
    if len(tokens) < 2 or int(tokens[0]) != len(tokens) - 1:
        return " ".join(tokens) or "done"
    if len(tokens) > LONGEST_SHOWN:
        return max(tokens[1:], key=int)
    return "[" + ", ".join(tokens[1:]) + "]"


def rust_text(answer):
    word, *tokens = answer.split(" ")
    flags = [token for token in tokens if not token.lstrip("-").isdigit()]
    values = [token for token in tokens if token not in flags]
    return ", ".join([shown(values) if word == "ok" else word, *flags])


def text_by_01(case):
    outcome = cases.run(case)
    return f"refusal {outcome.number}" if outcome.number else rust_text(cases.expected(case, outcome))


def rows():
    inputs = [row for table in (CLAMPS, LIMITS, PANICS, ALIKE) for row in table]
    requests = [cases.request(case) for _, case in inputs]
    plain, noted = (rust_answers(build, requests) for build in ("plain", "noted"))
    for (text, case), p, q in zip(inputs, plain, noted):
        yield f"| {text} | {rust_text(p)} | {rust_text(q)} | {text_by_01(case)} |"


def check():
    wanted = list(rows())
    found = [line for line in DOCUMENT.read_text().splitlines() if line.startswith("| ") and not line.startswith("| Input")]
    failed = [row for row in wanted if row not in found] + [row for row in found if row not in wanted]
    for row in failed:
        print(f"FAIL {row}")
    print(f"differences: {sum(row in found for row in wanted)} passed, {len(failed)} failed")
    return 1 if failed else 0


if __name__ == "__main__":
    if sys.argv[1:] == ["--check"]:
        sys.exit(check())
    print("\n".join(rows()))
