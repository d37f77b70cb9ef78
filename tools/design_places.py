#!/usr/bin/env python3
"""Counts the places that docs/DESIGN-PASS.md speaks of, in crates/*/src at a commit: tools/design_places.py [--list] COMMIT

By text alone, so that two commits are counted alike; what a reader alone can see is not in these counts.
  1  own enums with a variant Refused, None or Passed; structs that hold such an enum alone; functions that make a refusal an answer of a kind
  2  functions whose text, types, numerals and own names apart, is that of another function (each but the first of its group)
  3  loops that are not `for`, and of them those that count an index
  4  functions of one line or two that compare, choose the greater or the lesser, or convert, as the library does
  5  private functions whose parameters have a width, a count and cells loose beside one another
  6  private functions that are lent a buffer and, beside it, how much of it is in use
  7  own enums, and numbers, on which a `match` chooses what is done
"""
import re
import subprocess
import sys

LIBRARY = ["laws", "monomials", "numbers", "records", "bridge", "streams", "vectors"]


def sources(commit):
    names = subprocess.run(["git", "ls-tree", "-r", "--name-only", commit, "crates"], capture_output=True, text=True, check=True).stdout
    for name in names.split():
        if re.match(r"crates/\w+/src/\w+\.rt$", name):
            text = subprocess.run(["git", "show", f"{commit}:{name}"], capture_output=True, text=True, check=True).stdout
            yield name.split("/")[1], name, re.sub(r"^\s*//.*\n", "", text, flags=re.M)


def functions(text):
    """Name, parameters, text and whether it is public."""
    for match in re.finditer(r"^( *)(pub(?:\(crate\))? )?fn (\w+)(?:<.*?>)?\((.*?)\)(?: -> [^\n{]*)?\n?(.*?)^\1\}", text, re.M | re.S):
        yield match[3], re.sub(r"\s+", " ", match[4]), match[0], match[2] == "pub "


def enums(text):
    for match in re.finditer(r"^ *(?:pub(?:\(crate\))? )?enum (\w+)[^{]*\{(.*?)^ *\}", text, re.M | re.S):
        yield match[1], re.findall(r"^\s+(\w+)", match[2], re.M)


def shape(name, text):
    body = text[text.index("(") :]
    body = re.sub(r"\b(u8|u16|u32|u64|usize|i64|bool)\b", "T", body)
    body = re.sub(r"\b(requires|ensures)\b.*", "", body)
    body = re.sub(r"\b(\w+Answer|\w+Outcome|Told|Result<[^>]*>)\b", "A", body)
    body = re.sub(r"\b\d\w*\b", "N", body)
    body = re.sub(r"\bpt_\w+|\b\w+_(bytes|cells|words|coefficients|byte|cell)\b|\b(wide|widened|narrow|byte_of|cell_of|bits)\b", "f", body)
    return re.sub(r"\s+", "", body)


def places(commit):
    found = {key: [] for key in "1a 1b 1c 2 3 3i 4 5 6 7".split()}
    shapes = {}
    for crate, path, text in sources(commit):
        own = {name for name, variants in enums(text) if {"Refused", "None", "Passed"} & set(variants)}
        found["1a"] += [f"{path} {name}" for name in sorted(own)]
        found["1b"] += [f"{path} {name}" for name in re.findall(r"struct (\w+) \{\s*pub outcome: \w+,\s*\}", text)]
        found["3"] += [path for _ in re.findall(r"^\s*(?:while|loop)\b", text, re.M)]
        found["3i"] += [path for _ in re.findall(r"^\s*while [^{]*[<>][^{]*\{", text, re.M)]
        # bridge_c and records_c state what bridge and records do: the C interface
        is_export = crate.endswith("_c")
        for name, parameters, whole, public in functions(text):
            here = f"{path} {name}"
            if re.fullmatch(r"(\w+_)?refused", name) and public is False and crate != "vectors":
                found["1c"].append(here)
            if not is_export and len(whole.splitlines()) > 4:
                key = shape(name, whole)
                if key in shapes:
                    found["2"].append(f"{here} (as {shapes[key]})")
                else:
                    shapes[key] = name
            body = re.sub(r"\s+", " ", whole[whole.rindex("\n{\n") :] if "\n{\n" in whole else whole[whole.index("{") :]).strip("{ }")
            if re.fullmatch(r"if (\w+) < (\w+) \{ (\1|\2|0) \} else \{ (\1|\2|\1 - \2|\2 - \1) \}|\w+ as \w+|narrow\(.*\)|if b \{ 1 \} else \{ 0 \}|\w+ && \w+ == \w+|if x < y .*Order::.*|match order \{.*(true|false).*\}|\(\w+ % \d+\) as \w+", body):
                found["4"].append(here)
            if not public and re.search(r"\bn: usize\b", parameters) and re.search(r"\b(s|m|count): usize, (cells|xs|room): &\[u16\]|\b(cells|room): &\[u16\], (i: usize|n: usize, (m|s): usize)", parameters):
                found["5"].append(here)
            if not public and re.search(r"\w+: &(mut )?\[\w+\], (m|w|count): usize", parameters) and crate == "records":
                found["6"].append(here)
        for name, variants in enums(text):
            if name in {"Test", "Combine", "MonomialOrder", "Terms"}:
                found["7"].append(f"{path} {name}")
        found["7"] += [path for _ in re.findall(r"^    match code \{|code: u64, (?:a|coeffs|lists)", text, re.M)]
    return found


def main():
    arguments = [word for word in sys.argv[1:] if word != "--list"]
    found = places(arguments[0])
    for key, where in found.items():
        print(f"{key:3} {len(where)}")
        if "--list" in sys.argv:
            for line in where:
                print(f"      {line}")


if __name__ == "__main__":
    main()
