#!/usr/bin/env python3
"""Brings the must-fail edits to the spelling of today's files, after the port to Rattle's kit 13f (docs/PORT.md).

usage: tools/respell_edits.py            at the top of the repository: writes crates/*/must-fail/*.edit, and names those that are left to be done by hand
       tools/respell_edits.py --check    writes nothing: names the edits that don't fit today's files, that change nothing there, that close other
                                         brackets than they open, or that use a word that stands nowhere in the repository or the library
       tools/respell_edits.py --words    prints the words that it learned

An edit is read as it stood at the commit BEFORE, beside the files of that commit, and only one that still stands as it did then is written:
what was brought over by hand stays. Each of its texts is respelled word by word and then looked for in today's file, however that breaks its
lines. The words are learned from the two versions of the files, set side by side: from the file itself where it has the word, else from its
crate, else from all crates, else by the rule of tools/respell.py. Beside words it turns
  - a projection: `x .f` is `x.f`, `(x .f)` as an argument too, and `g x .f` is `(g x).f`;
  - a clause: `ensures { λ r. ⌜ r ≡ x ⌝ }` is `ensures { result ≡ x }`, `now (x .exit)` is `x.new`, and `now (x .entry)` is `x.old` or `x.now`;
  - `getD xs i 0`, which is `slice_index xs i` where today's file says so;
  - an imported word: it is put into a line that imports from the same module today, or nothing where it is imported already.
Where the text that is changed breaks over lines today, the pair is cut down to the line, or the lines, that change.
"""
import difflib
import glob
import os
import re
import subprocess
import sys
from collections import Counter, defaultdict

BEFORE = 'a7247194bad0e718d4270263b14b99b9fae1b3b0'
# The kit's libraries stand beside the page that `rt doc` names.
LIBRARY = os.path.join(os.path.dirname(subprocess.run(['rt', 'doc'], capture_output=True, text=True).stdout.strip()), 'rattle')
TOKEN = re.compile(r'[^\s(){}\[\];,.]+|[(){}\[\];,.]')
WORD = re.compile(r'[^\s(){}\[\];,.]+')


def snake(word):
    """`blocksIn` as `blocks_in`, `endsInFF` as `ends_in_ff`."""
    word = re.sub(r'([a-z0-9])([A-Z])', r'\1_\2', word)
    word = re.sub(r'([A-Z]+)([A-Z][a-z])', r'\1_\2', word)
    return word.lower()


def before(path):
    """The file as it stood at BEFORE, or nothing."""
    ran = subprocess.run(['git', 'show', f'{BEFORE}:{path}'], stdout=subprocess.PIPE, stderr=subprocess.DEVNULL)
    return ran.stdout.decode() if ran.returncode == 0 else None


def today(path):
    try:
        with open(path, encoding='utf-8') as text:
            return text.read()
    except OSError:
        return None


def pairs_of(text):
    """The pairs of an edit: [(file, old, new)]."""
    out, file, old = [], None, None
    for line in text.split('\n'):
        if line.startswith('file: '):
            file = line[6:].strip()
        elif line.startswith('old: '):
            old = line[5:]
        elif line.startswith('new:'):
            new = line[4:]
            out.append((file, old, new[1:] if new.startswith(' ') else new))
            old = None
    return out


# ---- words

class Words:
    """What each word of a file has become: in the file, in its crate, anywhere."""

    def __init__(self, paths):
        self.files, self.crates, self.all = defaultdict(dict), defaultdict(dict), {}
        in_file, in_crate, anywhere = defaultdict(lambda: defaultdict(Counter)), defaultdict(lambda: defaultdict(Counter)), defaultdict(Counter)
        for path in paths:
            old, new = before(path), today(path)
            if old is None or new is None:
                continue
            crate = path.split('/')[1]
            a, b = self.tokens(old), self.tokens(new)
            keys = [snake(w) if re.match(r'^[a-z]\w*[A-Z]', w) else w for w in a]
            for tag, i, j, k, m in difflib.SequenceMatcher(None, keys, b, autojunk=False).get_opcodes():
                if tag == 'equal' or (tag == 'replace' and j - i == m - k):
                    for x, y in zip(a[i:j], b[k:m]):
                        if WORD.fullmatch(x) and WORD.fullmatch(y):
                            for c in (in_file[path], in_crate[crate], anywhere):
                                c[x][y] += 1
        for path, c in in_file.items():
            self.files[path] = {x: y.most_common(1)[0][0] for x, y in c.items()}
        for crate, c in in_crate.items():
            self.crates[crate] = {x: y.most_common(1)[0][0] for x, y in c.items()}
        self.all = {x: y.most_common(1)[0][0] for x, y in anywhere.items()}

    @staticmethod
    def tokens(text):
        text = '\n'.join(re.sub(r'(^|\s)--.*', '', line) for line in text.split('\n') if not line.startswith(('use ', 'ghost use ')))
        return TOKEN.findall(text)

    def now(self, path, word):
        if not re.search(r'\w', word):
            return word
        for words in (self.files.get(path, {}), self.crates.get(path.split('/')[1], {}), self.all):
            if word in words:
                return words[word]
        return snake(word) if re.match(r"^[a-zα-ω]\w*[A-Z]", word) else word


# ---- the other turns of a text

def atom_before(text, end):
    """Where the atom begins that ends at `end`, with its projections: a word, or a group in brackets."""
    i = end
    while True:
        if i > 0 and text[i - 1] in ')}]':
            depth = 0
            while i > 0:
                i -= 1
                depth += {')': 1, '}': 1, ']': 1, '(': -1, '{': -1, '[': -1}.get(text[i], 0)
                if depth == 0:
                    break
            else:
                return None
        else:
            j = i
            while j > 0 and not re.match(r'[\s(){}\[\];,.]', text[j - 1]):
                j -= 1
            if j == i:
                return None
            i = j
        if i > 0 and text[i - 1] == '.' and i > 1 and not text[i - 2].isspace():
            i -= 1
            continue
        return i


APART = re.compile(r'^(?:[=≡≢≤<+*/%^∷→×;,&|λ∙:-]+|\+\+|&&|\|\||in|let|of|where|cond_|true_|::|.*=)$')


def subject(text, end):
    """Where the subject of a projection begins that stands at `end`: the whole application before it, and whether that has several parts."""
    first = atom_before(text, end)
    if first is None or APART.match(text[first:end]):
        return None, 0
    parts = 1
    while True:
        gap = first
        while gap > 0 and text[gap - 1] == ' ':
            gap -= 1
        if gap == first or gap == 0:
            return first, parts
        # a lambda's dot
        if text[gap - 1] == '.':
            return first, parts
        earlier = atom_before(text, gap)
        if earlier is None or APART.match(text[earlier:gap]):
            return first, parts
        first = earlier
        parts += 1


def projections(text):
    """`x .f` as `x.f`, `g x .f` as `(g x).f`."""
    at = 0
    while True:
        m = re.compile(r'(?<=\S) \.(?=[\w0-9])').search(text, at)
        if not m:
            break
        first, parts = subject(text, m.start())
        if first is None:
            at = m.end()
            continue
        if parts == 1:
            text = text[:m.start()] + '.' + text[m.end():]
        else:
            text = text[:first] + '(' + text[first:m.start()] + ').' + text[m.end():]
    return unbracketed(text)


def unbracketed(text):
    """`(x.f)` as `x.f`, where it is an argument, and `((x).f)`."""
    while True:
        m = re.search(r"(?<=[\s(])\((([^\s(){}\[\];,.]+)((?:\.[^\s(){}\[\];,.]+)+))\)", text)
        if not m:
            m = re.search(r"(?<=[\s(])\((\((?:[^()]|\([^()]*\))*\)(?:\.[^\s(){}\[\];,.]+)+)\)", text)
        if not m:
            return text
        text = text[:m.start()] + m.group(1) + text[m.end():]


def clauses(text, entry):
    text = re.sub(r'now \((\S+) \.exit\)', r'\1.new', text)
    text = re.sub(r'now \((\S+) \.entry\)', rf'\1.{entry}', text)
    text = re.sub(r'\((\S+\.(?:new|old|now))\)', r'\1', text)
    m = re.search(r'ensures \{ λ (\w+)\. ⌜ (.*)$', text)
    if m:
        body = m.group(2)
        if m.group(1) != '_':
            body = re.sub(rf'(?<![\w.]){m.group(1)}(?![\w])', 'result', body)
        text = text[:m.start()] + 'ensures { ' + body
    text = re.sub(r'⌜ ', '', text)
    text = re.sub(r' ⌝', '', text)
    return text


ATOM = r'(?:\((?:[^()]|\((?:[^()]|\([^()]*\))*\))*\)(?:\.\w+)*|[^\s(){}\[\];,.]+(?:\.\w+)*)'


def respell(text, path, words, entry, result):
    text = clauses(text, entry)
    if result:
        text = re.sub(rf'(?<![\w.]){result}(?= \.)', 'result', text)
    text = WORD.sub(lambda m: m.group(0) if m.group(0) in ('result',) else words.now(path, m.group(0)), text)
    text = projections(text)
    if 'slice_index ' in (today(path) or ''):
        text = re.sub(rf'(?:slice_index|get_or|getD) ({ATOM}) ({ATOM}) 0(?![\w.])', r'slice_index \1 \2', text)
    return text


# ---- the text in today's file

def spaced(text):
    """A pattern that finds the text however its lines are broken."""
    return r'\s*'.join(re.escape(t) for t in TOKEN.findall(text))


def tokens_at(text):
    return [(m.group(0), m.start(), m.end()) for m in TOKEN.finditer(text)]


def placed(file, old, new):
    """The pair, or pairs, of one line each that make of `old`, which stands once in the file but for its breaks, the text `new`."""
    found = list(re.finditer(spaced(old), file))
    if len(found) != 1:
        return None, f'stands {len(found)} times: {old.strip()}'
    there = found[0]
    text = file[there.start():there.end()]
    a, b = tokens_at(text), tokens_at(new.strip())
    if '\n' not in text:
        lead = old[:len(old) - len(old.lstrip())]
        at = there.start()
        begin = file.rfind('\n', 0, at) + 1
        if lead and file[begin:at].strip() == '':
            return [(file[begin:at] + text, file[begin:at] + new.strip())], None
        return [(text, new.strip())], None
    ops = [o for o in difflib.SequenceMatcher(None, [t[0] for t in a], [t[0] for t in b], autojunk=False).get_opcodes() if o[0] != 'equal']
    # the text with its changes, the breaks kept where nothing changes
    pieces = []
    for _, i, j, k, m in ops:
        inserted = new.strip()[b[k][1]:b[m - 1][2]] if m > k else ''
        if j > i:
            start, end = a[i][1], a[j - 1][2]
        else:
            start = end = a[i][1] if i < len(a) else len(text)
            inserted = inserted + ' ' if inserted and not inserted.endswith('(') else inserted
        if '\n' in text[start:end]:
            return None, f'the change breaks over lines: {text[start:end]}'
        pieces.append((there.start() + start, there.start() + end, inserted))
    out = defaultdict(list)
    for start, end, inserted in pieces:
        out[file.rfind('\n', 0, start) + 1].append((start, end, inserted))
    result = []
    for begin, changes in sorted(out.items()):
        end_of_line = file.find('\n', begin)
        line = file[begin:end_of_line]
        made = line
        for start, end, inserted in sorted(changes, reverse=True):
            made = made[:start - begin] + inserted + made[end - begin:]
        made = re.sub(r'(?<=\S)  +', ' ', made).replace('( ', '(').replace(' )', ')')
        if file.count(line) != 1:
            return None, f'the line stands {file.count(line)} times: {line}'
        result.append((line, made))
    return result, None


IMPORT = re.compile(r'(?:ghost )?use (\S+)\.\{(.*?)\}')


def imported(path, file, old, new, words):
    """The pair that brings in what `new` brings in and `old` doesn't."""
    had = {w for m in IMPORT.finditer(old) for w in m.group(2).split(', ')} if IMPORT.search(old) else set(re.findall(r'[^\s,{};]+', old))
    has = []
    if IMPORT.search(new):
        for m in IMPORT.finditer(new):
            has += [(m.group(1), w) for w in m.group(2).split(', ') if w not in had]
    else:
        has += [('', w) for w in re.findall(r'[^\s,{};]+', new) if w not in had]
    out = []
    for module, word in has:
        now = words.now(path, word) if re.search(r'[^\W_]', word) else '◌' + word.strip('_') + '◌'
        if re.search(r'\buse [^\n]*[{ ]' + re.escape(now) + r'[,}]', file):
            continue
        lines = [(m.group(1), m.group(2).split(', ')) for m in re.finditer(r'^((?:ghost )?use \S+\.\{)(.*)\}', file, re.M)]
        if module.startswith(('mathlib.', 'lib.', 'Prim.')):
            there = [l for l in lines if 'std.specs.Prelude' in l[0]]
        elif module:
            there = [l for l in lines if l[0].endswith('.' + module.split('.')[-1] + '.{')]
        else:
            there = [l for l in lines if any(words.now(path, w) in l[1] for w in had)]
        if not there:
            return None, f'no import of {module} for {now}'
        head, old = there[0][0], there[0][0]
        # as much of the line as stands once
        for at, w in enumerate(there[0][1]):
            old += (', ' if at else '') + w
            if file.count(old) == 1:
                break
        if out and out[-1][0] == old:
            out[-1] = (old, out[-1][1].replace(head, head + now + ', '))
        else:
            out.append((old, head + now + ', ' + old[len(head):]))
    return out, None


def applied(file, old, new):
    return file.replace(old, new, 1) if file.count(old) == 1 and old != new else None


def brought(edit, words):
    """The edit's text for today's files, or why it must be brought over by hand."""
    was = before(edit)
    crate = edit.split('/must-fail/')[0]
    files, out, last = {}, [l for l in was.split('\n') if l.startswith('#')], None
    originals = {}
    for file, old, new in pairs_of(was):
        path = f'{crate}/{file}'
        if path not in files:
            files[path], originals[path] = today(path), before(path)
        if files[path] is None:
            return None, f'there is no {file}'
        if originals[path].count(old) != 1:
            return None, f'not in the file of {BEFORE[:8]}: {old}'
        at = originals[path].index(old)
        result = None
        m = re.search(r'ensures \{ λ (\w+)\.(?!.*requires)[^⌝]*$', originals[path][max(0, at - 1500):at], re.S)
        if file.startswith('src/') and m and m.group(1) != '_':
            result = m.group(1)
        pairs, why = None, ''
        if re.match(r'(ghost )?use |\S+\.\{.*\}$|[\w, ]+\};$', old):
            pairs, why = imported(path, files[path], old, new, words)
        else:
            for entry in ('now', 'old'):
                o, n = respell(old, path, words, entry, result), respell(new, path, words, entry, result)
                pairs, said = placed(files[path], o, n)
                if pairs:
                    break
                why = why or said
            if not pairs and '.entry' in old:
                # some lists are lent for writing and some are not
                o = mixed(respell(old, path, words, 'now', result), files[path])
                n = respell(new, path, words, 'now', result)
                if o:
                    for name in set(re.findall(r'(\w+)\.old', o)):
                        n = n.replace(f'{name}.now', f'{name}.old')
                    pairs, _ = placed(files[path], o, n)
            # a list that the text writes is lent for writing
            if pairs and file.startswith('src/'):
                pairs = [(o, written(o, n)) for o, n in pairs]
            # a text that stands as it did
            if not pairs and files[path].count(old) == 1:
                pairs = [(old, new)]
        if pairs is None:
            return None, why
        for o, n in pairs:
            made = applied(files[path], o, n)
            if made is None:
                return None, f'cannot be applied: {o}'
            files[path] = made
            if file != last:
                out.append(f'file: {file}')
                last = file
            out += [f'old: {o}', f'new: {n}' if n else 'new:']
    return '\n'.join(out) + '\n', None


def written(old, new):
    for name in set(re.findall(r'(\w+)\.(?:new|old)\b', old)):
        new = re.sub(rf'\b{name}\.now\b', f'{name}.old', new)
    return new


def mixed(old, file):
    """The text with `.old` in place of `.now` for the names that today's file has so."""
    pattern = spaced(old).replace(r'\.\s*now', r'\.\s*(?:now|old)')
    found = list(re.finditer(pattern, file))
    return re.sub(r'\s+', ' ', found[0].group(0)) if len(found) == 1 else None


# ---- what an edit must be

def all_words():
    words = set()
    for root in ('crates', LIBRARY):
        for at, folders, files in os.walk(root):
            folders[:] = [f for f in folders if f not in ('out', 'must-fail', '.git')]
            for f in files:
                if f.endswith(('.antt', '.rt')):
                    with open(f'{at}/{f}', encoding='utf-8', errors='replace') as text:
                        words.update(re.findall(r"[\w']+", text.read()))
    return words


def balance(text):
    return Counter(c for c in text if c in '(){}[]⌜⌝')


def checked(edit, known):
    """Why the edit doesn't fit."""
    crate, files = edit.split('/must-fail/')[0], {}
    pairs = pairs_of(today(edit))
    if not pairs:
        return 'has no pair'
    opened = Counter()
    for file, old, new in pairs:
        path = f'{crate}/{file}'
        if path not in files:
            files[path] = today(path)
        if files[path] is None:
            return f'there is no {file}'
        if files[path].count(old) != 1:
            return f'stands {files[path].count(old)} times in {file}: {old}'
        if old == new:
            return f'changes nothing: {old}'
        files[path] = files[path].replace(old, new)
        for sign, text in ((1, new), (-1, old)):
            for c, n in balance(text).items():
                opened[c] += sign * n
        bound = set(re.findall(r"λ \(?([\w']+)", new)) | set(re.findall(r"\blet (?:mut )?([\w']+)", new))
        # (a goal's name holds the numbers of its condition)
        lacking = [w for w in re.findall(r"[\w']+", new) if not re.match(r'\d|(?:g|l)[te]\d|(?:eq|ne)\d', w) and w not in known and w not in bound]
        if lacking:
            return f'a word that stands nowhere: {lacking[0]}'
    if any(opened[a] != opened[b] for a, b in ('()', '{}', '[]', '⌜⌝')):
        return 'its brackets do not balance'
    return None


def main():
    edits = sorted(glob.glob('crates/*/must-fail/*.edit'))
    if '--check' in sys.argv:
        known, bad = all_words(), 0
        for edit in edits:
            why = checked(edit, known)
            if why:
                bad += 1
                print(f'{edit}: {why}')
        print(f'{len(edits)} edits, {bad} of them do not fit')
        sys.exit(1 if bad else 0)
    used = sorted({f'{e.split("/must-fail/")[0]}/{p[0]}' for e in edits for p in pairs_of(before(e) or '')})
    words = Words([f for c in sorted(glob.glob('crates/*')) for p in ('specs', 'src', 'proofs')
                   for f in sorted(glob.glob(f'{c}/{p}/**/*.*', recursive=True)) if os.path.isfile(f) and (p != 'proofs' or f in used or c in ('crates/t800',))])
    if '--words' in sys.argv:
        for x, y in sorted(words.all.items()):
            if x != y:
                print(x, y)
        return
    wrote, hand = 0, 0
    for edit in edits:
        was = before(edit)
        if was is None or was != today(edit):
            continue
        text, why = brought(edit, words)
        if text is None:
            hand += 1
            print(f'{edit}: {why}')
        elif text != was:
            wrote += 1
            with open(edit, 'w', encoding='utf-8') as it:
                it.write(text)
    print(f'{len(edits)} edits: {wrote} written, {hand} left to be done by hand')


if __name__ == '__main__':
    main()
