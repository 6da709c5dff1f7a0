#!/usr/bin/env python3
"""Brings the repository's own names in definitions and lemmas to one spelling.

`tools/respell.py` at the top of the repository, once. A name that a file of specs/ or proofs/ declares, or imports under a name of
its own choice, and that has a dash or a prime, becomes snake case (`path-at` is `path_at`), or camel case where it begins with a
capital (`Small-show` is `SmallShow`). Comments and strings stay. A name that a library has
stays. It stops where two names would fall together.
"""
import collections
import glob
import re
import sys

MARKS = {'pattern', 'unfoldable', 'abbrev', 'pub', 'axiom', 'data', 'record', 'ghost', 'let', 'where'}
LETTER = r"[^\s(){}\[\],;.«»:⌜⌝\"]"
TOKEN = re.compile(LETTER + '+')
DECLARES = re.compile(r'^\s*((?:' + LETTER + r'+ )*' + LETTER + r'+)(?: \{[^}]*\})*(?: \([^:]*:.*\))*\s+:(?=\s|$)')
HEADER = re.compile(r'^\s*(?:pub )?(?:record|data) (' + LETTER + '+)')
USE = re.compile(r'^\s*(?:ghost )?(?:pub )?use ([^{;\s]+?)(?:\.\{([^}]*)\})?(?: as ([^;\s]+))?;?\s*$')
CONSTRUCTS = re.compile(r'^\s*\((' + LETTER + r'+) ')


def texts():
    return sorted(set(glob.glob('crates/*/specs/**/*.antt', recursive=True) + glob.glob('crates/*/proofs/**/*.antt', recursive=True)))


def sources():
    return sorted(set(glob.glob('crates/*/src/**/*.rt', recursive=True)))


def edits():
    return sorted(set(glob.glob('crates/*/must-fail/*.edit') + glob.glob('crates/*/planted/*.edit')))


def joined(name):
    return '-' in name and re.search(r'\w-\w', name) is not None


def odd(name):
    return joined(name) or '′' in name or re.search(r"\w-[<≤≡*+]|[<≤≡]-\w", name) is not None


# these would fall together with a record beside them
APART = {'Least-terms': 'AllLeastTerms', 'Flips-once': 'AllFlipOnce'}


def new(name):
    if name in APART:
        return APART[name]
    name = name.replace('′', "'")
    if name[0].isupper():
        return ''.join(part[:1].upper() + part[1:] for part in name.split('-'))
    return name.replace('-', '_')


def main():
    own, foreign = collections.defaultdict(set), collections.defaultdict(set)
    for path in texts():
        for line in open(path):
            if line.lstrip().startswith('--'):
                continue
            used = USE.match(line)
            if used:
                from_own = any(used.group(1).startswith('Rattle.' + c + '.') for c in CRATES)
                for item in (used.group(2) or '').split(','):
                    parts = item.split(' as ')
                    if len(parts) == 2:
                        own[parts[1].strip()].add(path)
                    if not from_own:
                        foreign[parts[0].strip()].add(path)
                if used.group(3):
                    own[used.group(3)].add(path)
                continue
            if re.search(r': (?:\([^)]*\) → )?(?:goal|given)\.', line):
                continue
            head = HEADER.match(line)
            if head:
                own[head.group(1)].add(path)
            said = DECLARES.match(line)
            if said:
                for name in said.group(1).split():
                    if name not in MARKS:
                        own[name].add(path)
    names = {n for n in own if odd(n)}
    names -= set(foreign)
    fall = collections.defaultdict(set)
    for n in set(own) | set(foreign):
        fall[new(n) if n in names else n].add(n)
    bad = {k: sorted(v) for k, v in fall.items() if len(v) > 1}
    if bad:
        sys.exit('fall together: %s' % bad)

    def turn(text):
        return TOKEN.sub(lambda m: new(m.group()) if m.group() in names else m.group(), text)

    def code(line):
        if line.lstrip().startswith('//'):
            return line
        parts = re.split(r'("(?:[^"\\]|\\.)*")', line)
        return ''.join(p if p.startswith('"') else turn(p) for p in parts)

    changed = 0
    for path in texts() + sources() + edits():
        text = open(path).read()
        lines = text.split('\n')
        if path.endswith('.antt'):
            lines = [line if line.lstrip().startswith('--') else turn(line) for line in lines]
        elif path.endswith('.rt'):
            lines = [code(line) for line in lines]
        else:
            lines = [line[:5] + code(line[5:]) if line.startswith(('old: ', 'new: ')) else line for line in lines]
        out = '\n'.join(lines)
        if out != text:
            open(path, 'w').write(out)
            changed += 1
    for path in sorted(glob.glob('docs/*.md') + ['README.md']):
        text = open(path).read()
        out = re.sub(r'`[^`\n]+`', lambda m: turn(m.group()), text)
        out = re.sub(r'`[^`\n]+`', lambda m: '`' + turn(m.group()[1:-1]) + '`', out)
        if out != text:
            open(path, 'w').write(out)
            changed += 1
    print('names: %d; files changed: %d' % (len(names), changed))
    for n in sorted(names):
        print(n, new(n))


CRATES = sorted(set(re.match(r'crates/([^/]+)/', p).group(1) for p in texts() + sources()))
main()
