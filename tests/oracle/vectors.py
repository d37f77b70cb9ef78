#!/usr/bin/env python3
"""Makes tests/vectors, or checks it.

vectors.py          writes the files anew; every answer that the Rust has too must agree (build first: tests/oracle/build)
vectors.py --check  recomputes them with the Python oracle alone and compares; the last line is "N passed, M failed"
"""
import pathlib
import sys
from itertools import zip_longest

import cases
from chosen_monomials import coefficients, masks, monomials
from chosen_numbers import dimensions, hf_values, numerators, updates
from chosen_records import hosts, records
from compare import MOST_SHOWN, RUST_CALLS, column, rust_answers

FOLDER = pathlib.Path(__file__).resolve().parent.parent / "vectors"
LONGEST_LINE = 65536
LARGEST_FILE = 250_000

FILES = {
    "monomials.txt": monomials,
    "masks.txt": masks,
    "coefficients.txt": coefficients,
    "hf_at.txt": hf_values,
    "numerator.txt": numerators,
    "update.txt": updates,
    "dimension.txt": dimensions,
    "records.txt": records,
    "host.txt": hosts,
}


def lines_of(items):
    """The lines of a file: comments, cases with their answers."""
    return ["# " + item if isinstance(item, str) else cases.line(item) for item in items]


def largest(items, kinds, size):
    """The largest size among the arguments of the kinds given."""
    found = (zip(cases.CALLS[item[0]].kinds, item[1:]) for item in items if not isinstance(item, str))
    return max((size(x) for arguments in found for kind, x in arguments if kind in kinds), default=0)


def text_of(items):
    lines = lines_of(items)
    count = sum(not line.startswith("#") for line in lines)
    longest = max(map(len, lines)) + 1
    head = (f"# {count} cases; longest line {longest} bytes; longest list given {largest(items, 'l', len)} elements; "
            f"largest output or room lent {largest(items, 'or', int)} elements")
    text = "".join(line + "\n" for line in [head, *lines])
    if longest > LONGEST_LINE or len(text) > LARGEST_FILE:
        sys.exit(f"a line of {longest} bytes or a file of {len(text)} is too long")
    return text


def disagreements(items):
    """The cases on which the Rust, neither clamped nor outside its domain, has another answer."""
    asked = [(case, cases.expected(case, cases.run(case))) for case in items if not isinstance(case, str) and case[0] in RUST_CALLS]
    asked = [(cases.request(case), wanted) for case, wanted in asked if wanted is not None]
    plain, noted = (rust_answers(build, [request for request, _ in asked]) for build in ("plain", "noted"))
    for (request, wanted), p, q in zip(asked, plain, noted):
        if column(wanted, p, q) == "failed":
            yield f"{request[:200]}: plain {p[:200]}, noted {q[:200]}, by 01 {wanted[:200]}"


def make():
    failed = [found for source in FILES.values() for found in disagreements(list(source()))]
    if failed:
        print("\n".join(failed[:MOST_SHOWN]))
        return 1
    for name, source in FILES.items():
        text = text_of(list(source()))
        (FOLDER / name).write_text(text)
        print(f"{name}: {text.splitlines()[0][2:]}; {len(text)} bytes")
    return 0


def compared_lines(name, source):
    """Place, line wanted and line found, for every line of either."""
    wanted, found = text_of(list(source())).splitlines(), (FOLDER / name).read_text().splitlines()
    for k, (w, f) in enumerate(zip_longest(wanted, found, fillvalue="nothing")):
        yield f"{name}:{k + 1}", w, f


def check():
    lines = [line for name, source in FILES.items() for line in compared_lines(name, source)]
    failed = [(where, w, f) for where, w, f in lines if w != f]
    for where, w, f in failed[:MOST_SHOWN]:
        print(f"FAIL {where}: {f[:150]}, not {w[:150]}")
    print(f"vectors: {len(lines) - len(failed)} passed, {len(failed)} failed")
    return 1 if failed else 0


if __name__ == "__main__":
    sys.exit(check() if sys.argv[1:] == ["--check"] else make())
