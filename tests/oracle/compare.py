#!/usr/bin/env python3
"""Compares the Rust, plain and noted, with the Python oracle on the generated cases.

compare.py            the standard run
compare.py --scale N  N times as many random cases
Build first: tests/oracle/build. The last line is "N passed, M failed"; status 1 on any disagreement."""
import argparse
import pathlib
import subprocess
import sys
from collections import Counter
from random import Random

import cases
import generate
import meaning

TARGET = pathlib.Path(__file__).resolve().parent.parent.parent / "target" / "oracle"
COLUMNS = ("agreed", "refused", "refused alone", "clamped", "panic", "outside", "failed")
FLAGS = (" clamped", " cut")
RECORD_CALLS = ("write_record", "check_place", "place", "copy_record", "host")
RUST_CALLS = cases.CALLS.keys() - RECORD_CALLS
MOST_SHOWN = 10


class Tally:
    """Counts by call and column, and the first disagreements."""

    def __init__(self):
        self.counts = Counter()
        self.shown = []

    def add(self, name, column, detail=""):
        self.counts[name, column] += 1
        if column == "failed" and len(self.shown) < MOST_SHOWN:
            self.shown.append(f"FAIL {name}: {detail[:2000]}")

    def check(self, name, found, wanted, about):
        self.add(name, "agreed" if found == wanted else "failed", f"{about}: {found}, not {wanted}")

    def total(self, *columns):
        return sum(count for (_, column), count in self.counts.items() if column in columns)

    def table(self):
        rows = [("call", *COLUMNS)]
        for name in dict.fromkeys(name for name, _ in self.counts):
            rows.append((name, *(str(self.counts[name, column]) for column in COLUMNS)))
        for first, *rest in rows:
            print(f"{first:<14}" + "".join(f"{cell:>15}" for cell in rest))


def rust_answers(build, requests):
    """The answers of one process to all requests."""
    if not (TARGET / build).is_file():
        sys.exit(f"no target/oracle/{build}: run tests/oracle/build first")
    text = "".join(f"{line}\n" for line in requests)
    answers = subprocess.run([str(TARGET / build)], input=text, stdout=subprocess.PIPE, text=True, check=True).stdout.splitlines()
    if len(answers) != len(requests):
        sys.exit(f"{build} gave {len(answers)} answers to {len(requests)} requests")
    return answers


def host_as_dimension(case):
    """A host case whose record is one, as the dimension of its list."""
    n, listed = meaning.parsed(bytes(case[1]))
    return cases.dimension_case(n, listed)


def asked_of_rust(scale, tally):
    """Pairs of a request and the answer that agrees; what the Rust cannot be asked is counted at once."""
    for case in generate.cases(scale):
        outcome = cases.run(case)
        if case[0] == "host" and outcome.number in (0, 11, 13):
            case = host_as_dimension(case)
            outcome = cases.run(case)
        wanted = cases.expected(case, outcome) if case[0] in RUST_CALLS else None
        if wanted is not None:
            yield cases.request(case), wanted
        elif case[0] in RUST_CALLS:
            tally.add(case[0], "refused alone")


def unflagged(answer):
    for flag in FLAGS:
        answer = answer.replace(flag, "")
    return answer


def column(wanted, plain, noted):
    if noted == "outside" or (noted == "panic" and wanted != "panic"):
        return noted
    if unflagged(noted) != noted:
        return "clamped" if unflagged(noted) == plain else "failed"
    if noted != wanted or (noted != "panic" and plain != noted):
        return "failed"
    return "agreed" if noted.startswith("ok") else "refused"


def compare_with_rust(scale, tally):
    pairs = list(asked_of_rust(scale, tally))
    requests = [request for request, _ in pairs]
    plain, noted = (rust_answers(build, requests) for build in ("plain", "noted"))
    for (request, wanted), p, q in zip(pairs, plain, noted):
        detail = f"{request}: plain {p}; noted {q}; by 01 {wanted}"
        tally.add(request.split(" ", 1)[0], column(wanted, p, q), detail)
    return len(requests)


def has_record_form(record):
    """A second reading of 12: the header's numbers, falling order, and no later monomial dividing an earlier one."""
    if len(record) < 7 or record[0] != 1 or int.from_bytes(record[1:5], "big") != len(record) - 5:
        return False
    n, m = record[5], record[6]
    if m > 60 or len(record) != 7 + 2 * m * n:
        return False
    listed = [tuple(record[7 + 2 * (k * n + v)] * 256 + record[8 + 2 * (k * n + v)] for v in range(n)) for k in range(m)]
    falling = all(meaning.degrevlex(a, b) > 0 for a, b in zip(listed, listed[1:]))
    return falling and not any(meaning.divides(listed[j], listed[i]) for i in range(m) for j in range(i + 1, m))


def compare_records(scale, tally):
    """Both readings of 12; and one record whatever the order, with multiples added."""
    for record in generate.records(scale):
        tally.check("record", meaning.is_record(record), has_record_form(record), record.hex())
    rng = Random(30)
    for n, listed in generate.random_lists(rng, 500 * scale):
        other = listed + [tuple(x + rng.randint(0, 2) for x in rng.choice(listed)) for _ in range(3)]
        rng.shuffle(other)
        tally.check("record", meaning.ideal_record(other, n), meaning.ideal_record(listed, n), f"{n} {listed} {other}")


def compare_counts(scale, tally):
    """HF by going through all monomials of a degree, against the subset sum."""
    for n, listed in generate.random_lists(Random(28), 300 * scale):
        if n <= 4:
            counts = [meaning.count_at(listed, n, d) for d in range(7)]
            tally.check("count", meaning.series(meaning.numerator(listed, n), n, 6), counts, f"{n} {listed}")


def compare_masks(scale, tally):
    """If one monomial divides another of the same width, the masks are consistent."""
    rng = Random(29)
    for _ in range(500 * scale):
        n, max_deg = rng.randint(0, 140), rng.choice((0, 1, 5, 100, 65535))
        a = [rng.randint(0, min(65000, max_deg + 2)) for _ in range(n)]
        b = [x + rng.choice((0, 0, 1, 2, 500)) for x in a]
        both = meaning.mask(n, max_deg, a), meaning.mask(n, max_deg, b)
        tally.check("mask law", meaning.consistent(*both), True, f"{n} {max_deg} {a} {b}")


def main():
    parser = argparse.ArgumentParser()
    parser.add_argument("--scale", type=int, default=1)
    scale = parser.parse_args().scale
    tally = Tally()
    asked = compare_with_rust(scale, tally)
    compare_records(scale, tally)
    compare_counts(scale, tally)
    compare_masks(scale, tally)
    tally.table()
    print("\n".join(tally.shown + [f"{asked} requests to each build; record, count and mask law are within the Python oracle"]))
    failed = tally.total("failed")
    print(f"{tally.total('agreed', 'refused')} passed, {failed} failed")
    return 1 if failed else 0


if __name__ == "__main__":
    sys.exit(main())
