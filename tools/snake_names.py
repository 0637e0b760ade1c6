#!/usr/bin/env python3
# tools/snake_names.py: writes in snake case each definition, lemma and record field of the crates that was named in camel
# case, and each name of specs/ that had a dash, as today's Rattle spells them. Run right after the kit's port.py.
#
# Types, facts and modules keep their camel case, and a dash goes on joining the parts of a lemma's name in proofs/. It reads the
# proofs, the definitions, the code's clauses and comments, and, for the dashes, the must-fail edits. The code's own names,
# exported names, strings, inputs and outputs are in none of these forms, so none of them moves. Three names would have
# fallen together with others of their file, and one is IEEE 754's own: OTHER and OTHER_IN have them.
import re
import sys
from pathlib import Path

ROOT = Path(__file__).resolve().parent.parent
WORD = re.compile(r"(?<![A-Za-z0-9_'])[A-Za-z_][A-Za-z0-9_']*")
CAMEL = re.compile(r"[a-z][A-Za-z0-9_]*?[a-z0-9][A-Z]")

# promises' clauses `in_two` and `hold-samples` speak of `inTwo` and `holdSamples`, a lemma of eq_bands beside `isDigit` was
# `is_digit`, and the operation that root's pages name is IEEE's.
OTHER = {"inTwo": "cut_in_two", "squareRoot": "squareRoot", "hold-samples": "hold_in_samples"}
OTHER_IN = {"crates/eq_bands/proofs/Digits.antt": {"is_digit": "digit_of"}}


def snake(name):
    """atRest: at_rest; allF32: all_f32; band3Set: band3_set; coeffA: coeff_a."""
    return OTHER.get(name) or re.sub(r"(?<=[a-z0-9])([A-Z])", r"_\1", name).lower()


def turned(text, others):
    return WORD.sub(lambda m: others.get(m[0]) or (snake(m[0]) if CAMEL.match(m[0]) else m[0]), text)


def files(patterns):
    for pattern in patterns:
        for path in sorted((ROOT / "crates").rglob(pattern)):
            if "out" not in path.relative_to(ROOT).parts:
                yield path


DASHED = re.compile(r"(?m)^ *(?:(?:abbrev|unfoldable|pub) )*([A-Za-z][A-Za-z0-9_']*(?:-[A-Za-z0-9_']+)+) :")


def undashed():
    """Turns each name of specs/ that has a dash, wherever it stands."""
    names = set()
    for path in files(["*.antt"]):
        if "specs" in path.relative_to(ROOT).parts:
            names.update(DASHED.findall(path.read_text(encoding="utf-8")))
    if not names:
        return 0
    word = re.compile(r"(?<![A-Za-z0-9_'-])(" + "|".join(sorted(names, key=len, reverse=True)) + r")(?![A-Za-z0-9_'-])")
    count = 0
    for path in files(["*.antt", "*.rt", "*.edit"]):
        text = path.read_text(encoding="utf-8")
        new = word.sub(lambda m: OTHER.get(m[0]) or m[0].replace("-", "_"), text)
        if new != text:
            path.write_text(new, encoding="utf-8")
            count += 1
    return count


def main():
    count = 0
    for path in files(["*.antt", "*.rt"]):
        text = path.read_text(encoding="utf-8")
        turning = any(CAMEL.match(word) for word in WORD.findall(text))
        new = turned(text, OTHER_IN.get(str(path.relative_to(ROOT)), {}) if turning else {})
        if new != text:
            path.write_text(new, encoding="utf-8")
            count += 1
    print(f"{count} files, and {undashed()} with a dash")
    return 0


if __name__ == "__main__":
    sys.exit(main())
