#!/usr/bin/env python3
"""Respells the repository's own definitions and lemmas: words in snake case, after the port to Rattle's kit 13f (docs/PORT.md).

usage: tools/respell.py [--list]      at the top of the repository, once, after port.py

A word in camel case is written with underscores. In a lemma's name a dash stays only behind a word that is itself a definition's name, as in
`blocks_in-append`; elsewhere it becomes an underscore. A lemma that would get a definition's name gets `_lem`. Names of the library, names
that Rattle makes, and names of Rust's items stay.
"""
import glob
import os
import re
import subprocess
import sys

DELIM = r'\s(){}\[\];,."'
TOKEN = re.compile(r'[^' + DELIM + r']+')
DECLARED = re.compile(r'^\s*(?:(?:abbrev|unfoldable|pub|opaque|private)\s+)*([^' + DELIM + r']+)(?:\s+[^' + DELIM + r':]+)*\s*:(?:\s|$)')
LET = re.compile(r'\blet\s+([^' + DELIM + r']+)(?=\s*[:=]|\s)')
BINDER = re.compile(r'[({]([^(){}:]+?)\s:\s')
# The kit's libraries stand beside the page that `rt doc` names.
LIBRARY = os.path.join(os.path.dirname(subprocess.run(['rt', 'doc'], capture_output=True, text=True).stdout.strip()), 'rattle')


def code_of(line):
    """The line without its comment."""
    m = re.search(r'(^|\s)--', line)
    return line[:m.start()] if m else line


def snake(word):
    """`blocksIn` as `blocks_in`, `endsInFF` as `ends_in_ff`."""
    word = re.sub(r'([a-z0-9])([A-Z])', r'\1_\2', word)
    word = re.sub(r'([A-Z]+)([A-Z][a-z])', r'\1_\2', word)
    return word.lower()


def is_camel(word):
    return re.match(r"^[a-zα-ω_]\w*[A-Z]", word) is not None


def antt_files():
    return sorted(f for p in ('specs', 'proofs') for f in glob.glob(f'crates/*/{p}/**/*.antt', recursive=True) if '/out/' not in f)


def functions():
    """The folders of proofs that belong to a function."""
    return {os.path.dirname(f) for f in glob.glob('crates/*/proofs/*/Proof.antt')}


def library_names():
    names = set()
    for root, _, files in os.walk(LIBRARY):
        for f in files:
            if f.endswith('.antt'):
                with open(os.path.join(root, f), encoding='utf-8', errors='replace') as text:
                    for line in text:
                        m = DECLARED.match(line)
                        if m:
                            names.add(m.group(1))
    return names


def collect():
    """All words of the files, those declared there, and of these the definitions of specs/."""
    words, declared, defined = set(), set(), set()
    of_functions = functions()
    for f in antt_files():
        in_function = os.path.dirname(f) in of_functions
        with open(f, encoding='utf-8') as text:
            for line in text:
                line = code_of(line.rstrip('\n'))
                words.update(TOKEN.findall(line))
                if line.startswith('use '):
                    continue
                if not in_function:
                    m = DECLARED.match(line)
                    if m:
                        declared.add(m.group(1))
                        if '/specs/' in f and not line.startswith(' '):
                            defined.add(m.group(1))
                    for b in BINDER.findall(line):
                        declared.update(b.split())
                for m in LET.finditer(line):
                    declared.add(m.group(1))
    return words, declared, defined


def dashed(word, definitions):
    """A lemma's name: a dash only behind a definition's name."""
    parts = word.split('-')
    parts = [snake(p) if is_camel(p) else p for p in parts]
    out, first = parts[0], parts[0] in definitions or re.match(r'^[A-Z]', parts[0]) is not None
    for i, p in enumerate(parts[1:]):
        out += ('-' if first else '_') + p
        first = False
    return out


LISTS = {'length', 'take', 'drop', 'append', 'get_or', 'replicate', 'map', 'sum', 'reverse', 'concat', 'flat_map', 'pow', 'eqb', 'ltb', 'leb'}


def mapping():
    words, declared, defined = collect()
    library = library_names()
    own = {w for w in declared if w not in library}
    new = {}
    for w in sorted(words | declared):
        if is_camel(w) and '-' not in w and w not in library:
            new[w] = snake(w)
    definitions = {new.get(d, d) for d in defined}
    taken = {}
    for w in words | declared:
        if w not in new and not (('-' in w) and w in own):
            taken[w] = w
    fell = []
    for w, n in list(new.items()):
        if n in taken and taken[n] != w:
            fell.append((w, taken[n], n))
        taken.setdefault(n, w)
    for w in sorted(own):
        if '-' not in w or not re.match(r"^[A-Za-zα-ω]", w) or w.startswith('returns-'):
            continue
        n = dashed(w, definitions | LISTS)
        if n == w:
            continue
        if n in taken and taken[n] != w:
            fell.append((w, taken[n], n))
            n = n + '_lem'
        taken[n] = w
        new[w] = n
    return new, fell


def respell(text, new, comments):
    out = []
    for line in text.split('\n'):
        code = code_of(line) if comments else line
        rest = line[len(code):]
        code = TOKEN.sub(lambda m: new.get(m.group(0), m.group(0)), code)
        rest = TOKEN.sub(lambda m: new[m.group(0)] if m.group(0) in new and '-' not in m.group(0) else m.group(0), rest)
        out.append(code + rest)
    return '\n'.join(out)


def main():
    new, fell = mapping()
    for w, other, n in fell:
        print(f'fall together: {w} and {other}: {n}')
    if '--list' in sys.argv:
        for w, n in sorted(new.items()):
            print(w, n)
        return
    camel = {w: n for w, n in new.items() if '-' not in w}
    for f in antt_files():
        with open(f, encoding='utf-8') as text:
            old = text.read()
        now = respell(old, new, True)
        if now != old:
            with open(f, 'w', encoding='utf-8') as text:
                text.write(now)
    for f in sorted(glob.glob('crates/*/src/**/*.rt', recursive=True)):
        with open(f, encoding='utf-8') as text:
            old = text.read()
        now = '\n'.join(TOKEN.sub(lambda m: (new if line.startswith('ghost use ') else camel).get(m.group(0), m.group(0)), line)
                        for line in old.split('\n'))
        if now != old:
            with open(f, 'w', encoding='utf-8') as text:
                text.write(now)


if __name__ == '__main__':
    main()
