#!/usr/bin/env python3
"""Counts the places of docs/DESIGN-PASS.md in crates/*/src: tools/design_counts.py [CHECKOUT] [--where]."""
import collections
import pathlib
import re
import sys

POINTS = [
    ("1 a refusal as a number: `Refusal::NAME` constants", r"\bRefusal::[A-Z_]{4,}\b"),
    ("1 a refusal's number in a struct of values", r"^\s+(?:pub )?refusal: u32,"),
    ("1 a refusal tested as a number", r"\b(?:\w+\.)?(?:refusal|why|refused|answer|first|second) (?:!=|==) 0\b"),
    ("1 a flag beside values", r"^\s+(?:pub )?(?:ok|good|whole|below|past): bool,"),
    ("1 a place or size where 0 says none", r"\bfn (?:state_in_front|bands_in_range)\([^)]*\) -> usize|\bfn size_at\(segments[^)]*\) -> usize"),
    ("1 constants that number kinds", r"^(?:pub )?const (?:LOAD|START|MEASURE|READ|POKE|WRITER|READER): u(?:8|32|64) ="),
    ("1 a kind tested as a number", r"\bkind(?:\.value)? == (?:\d+|[A-Z]+)\b"),
    ("3 loops that count by hand", r"\bwhile (?:\w+ (?:<|<=) [^{]*|0 < \w+) \{"),
    ("4 conversions and comparisons by hand",
     r"^(?:pub )?fn (?:wide|wide_word|smaller|least|to_word|to_size|to_byte|one_less|half_up|both|included|reached|bytes_from)\b"),
    ("5 functions with `counts`, `lengths` and `marks`", r"lengths: &\[u32\],\s+marks: &\[u8\]"),
    ("5 functions with `base`, `row`, `depth` and `x`", r"base: usize,\s+row: &\[usize; 7\],\s+(?:depth|levels): usize,\s+x: usize"),
    ("5 functions with `bands` and how many", r"bands: \[Band; 3\],\s+n: usize"),
    ("5 clauses with `FreeBitsClear`", r"requires[^\n]*FreeBitsClear"),
    ("5 clauses with `ct ≤ 8`", r"ct ≤ 8"),
    ("6 fixed rooms with a length beside", r"^\s+(?:words|bytes): \[u(?:8|32); \d+\],\n\s+size: usize,"),
    ("7 a switch on which step", r"\bif (?:role|asked\.kind|begun\.role) == \w+"),
]


def sources(top):
    for path in sorted(pathlib.Path(top).glob("crates/*/src/**/*.rt")):
        yield path, path.read_text()


def twins(files):
    """Functions of one name and one body, but for names of types, in several places."""
    bodies = collections.defaultdict(list)
    for path, text in files:
        for m in re.finditer(r"(?ms)^(?:pub )?fn (\w+)(.*?)^\}", text):
            body = m.group(2)[re.search(r"\{\n", m.group(2)).start():]
            body = re.sub(r"\bt2_within_", "t2_read_", body)  # names of crates that are now one
            bodies[m.group(1)].append((path.parts[-3], re.sub(r"\s+", " ", body)))
    return {n: [c for c, _ in l] for n, l in bodies.items() if len(l) > 1 and len({b for _, b in l}) < len(l)}


def main():
    args = [a for a in sys.argv[1:] if not a.startswith("--")]
    files = list(sources(args[0] if args else "."))
    for name, pattern in POINTS:
        by = {}
        for path, text in files:
            n = len(re.findall(pattern, text, re.M))
            if n:
                by[path.parts[-3]] = by.get(path.parts[-3], 0) + n
        print(f"{sum(by.values()):4}  {name}")
        if "--where" in sys.argv:
            print("      " + ", ".join(f"{c} {n}" for c, n in by.items()))
    found = twins(files)
    print(f"{sum(len(l) for l in found.values()):4}  2 functions of one name and body in several places")
    if "--where" in sys.argv:
        print("      " + "; ".join(f"{n}: {' '.join(l)}" for n, l in sorted(found.items())))


if __name__ == "__main__":
    main()
