#!/usr/bin/env python3
"""Lists the places of code that older forms of Rattle left, point by point (docs/DESIGN-PASS.md).

    python3 tools/places.py [-l] [FOLDER]

FOLDER is a checkout (this one, if none is named). It reads crates/*/src/**/*.rt, and prints for each point and each kind of
place how many it finds; with -l each place too. A place is found by its text, so what is found is to be read: some stay, and
docs/DESIGN-PASS.md says why. Files of test crates (NAME_tests, geometry_cases) are read for points 1 to 4 too.
"""
import collections
import glob
import os
import re
import sys

LIST = '-l' in sys.argv
FOLDERS = [a for a in sys.argv[1:] if not a.startswith('-')]
TOP = FOLDERS[0] if FOLDERS else os.path.dirname(os.path.dirname(os.path.abspath(__file__)))


class Function:
    def __init__(self, path, line, name, text, clauses):
        self.path, self.line, self.name, self.text, self.clauses = path, line, name, text, clauses

    def where(self):
        return f'{self.path}:{self.line} {self.name}'


def files():
    for p in sorted(glob.glob(os.path.join(TOP, 'crates', '*', 'src', '**', '*.rt'), recursive=True)):
        yield os.path.relpath(p, os.path.join(TOP, 'crates')), open(p).read().split('\n')


def plain(line):
    return re.sub(r'//.*', '', line)


def functions(path, lines):
    k = 0
    while k < len(lines):
        m = re.match(r'\s*(pub(\([a-z]+\))? )?(extern "C" )?(final )?fn (\w+)', lines[k])
        if not m:
            k += 1
            continue
        start, text, clauses = k, '', []
        while k < len(lines):
            s = plain(lines[k]).strip()
            if re.match(r'(requires|ensures)\b', s):
                clauses.append(s)
            elif s == '{' or s.endswith(' {') and not clauses:
                text += ' ' + s
                break
            elif s.endswith(';') and not clauses:
                text += ' ' + s
                break
            elif not clauses:
                text += ' ' + s
            if clauses and s.endswith(';'):
                break
            k += 1
        yield Function(path, start + 1, m.group(5), text, clauses)
        k += 1


def parameters(text):
    m = re.search(r'fn \w+(<.*?>)?\s*\((.*)\)\s*(->.*)?[{;]?\s*$', text)
    if not m:
        return []
    out, depth, word = [], 0, ''
    for ch in m.group(2) + ',':
        if ch in '(<[':
            depth += 1
        elif ch in ')>]':
            depth -= 1
        if ch == ',' and depth == 0:
            word = ' '.join(word.split())
            if word and 'self' not in word.split(':')[0]:
                out.append(word.replace('mut ', '', 1) if word.startswith('mut ') else word)
            word = ''
        else:
            word += ch
    return out


FOUND = collections.OrderedDict()


def found(point, kind, where):
    FOUND.setdefault(point, collections.OrderedDict()).setdefault(kind, []).append(where)


def by_line(path, lines):
    for n, raw in enumerate(lines, 1):
        s = plain(raw)
        here = f'{path}:{n}: {s.strip()[:110]}'
        # 1
        if re.search(r'->\s*Option<(Refusal|Stop)>', s):
            found(1, 'an error handed over as an Option', here)
        if re.search(r'if let (Some|Err)\(\w+\) = .*\{\s*$', s) and n < len(lines) and re.match(r'\s*return Err', lines[n]):
            found(1, 'an error handed on without `?`', here)
        if re.search(r'let (Ok|Some)\(.*\) = .* else \{', s) and n < len(lines) and re.match(r'\s*return (Err\(|None|Some|Ok|at;|n;)', lines[n]):
            found(1, '`let .. else` that hands an error or a value on', here)
        if re.search(r'\bErr\((_|\w+)\) =>\s*(None|Err\(|return Err)|\bNone =>\s*(None|false|true)|\bSome\(_\) =>\s*(true|false)|\bErr\(back\) =>', s):
            found(1, 'a match that a method of Option or Result stands for', here)
        if re.search(r'fn \w+\(.*\b(number|tag): u8|fn (number|tag)\b.*-> u8|const NOWHERE|const NO_SLOT|0 is no number|or 0\b', raw) and 'tests' not in path.split('/')[0]:
            found(1, 'a number for a kind, a refusal or for nothing', f'{path}:{n}: {raw.strip()[:110]}')
        # 3
        if re.search(r'\b(while|loop)\b', s):
            found(3, 'while and loop', here)
        if re.search(r"\bfor \w+ in [\w:]+\.\.", s):
            found(3, 'for over a range of indices', here)
        # 4
        if re.search(r'\bfn (before|same|ranks|is|number|tag|kind|word|word_of|stop_words|kind_word|hex_digit|leg_of|place_of)\b', s):
            found(4, 'equality, order, conversion or words as a function', here)
        if re.search(r'\bas (u8|u16|u32|u64|usize|i8|i16|i32|i64|char)\b', s):
            found(4, 'as', here)
        if re.search(r'\bwrite!\(out', s):
            found(4, 'write! outside an impl of Display', here)
        # 6
        if re.search(r':\s*\[[^\]]+;\s*[\w]+\]\s*,', s) and not re.match(r'\s*(let|const|static)\b', s):
            found(6, 'a fixed table in a struct', here)
        if re.search(r'\b(len|count|used): (u8|u16|usize)\s*,', s):
            found(6, 'a length beside a table', here)


def enums(path, lines):
    text = '\n'.join(lines)
    for m in re.finditer(r'(^|\n)\s*(pub(\([a-z]+\))? )?enum (\w+) \{(.*?)\n\s*\}', text, re.S):
        variants = [v for v in re.findall(r'^\s{4}(\w+)', re.sub(r'\s*//.*', '', m.group(5)), re.M)]
        n = text[:m.start(4)].count('\n') + 1
        if len(variants) <= 3:
            found(1, 'enums of at most three variants', f'{path}:{n}: {m.group(4)} ' + '{' + ', '.join(variants) + '}')


def contracts(all_functions):
    facts = collections.defaultdict(list)
    for f in all_functions:
        for c in f.clauses:
            if not c.startswith('requires'):
                continue
            body = c[c.index('{') + 1:c.rindex('}')].strip()
            for part in re.split(r'\)\s*×\s*\(', body.strip('()')):
                fact = re.sub(r'\b(c|d|craft|leader)\b (<|≤) 64', 'craft < 64', part.strip())
                fact = re.sub(r'\b(slot|a|b|at|hand)\b < (12352|12288)', r'slot < \2', fact)
                fact = re.sub(r'\b(Fits|FitsIn) .*', r'Fits ..', fact)
                fact = re.sub(r'\b(Sized|AllSized|IndexedBut|OrderedBut|Indexed|Ordered|Below)\b .*', r'\1 ..', fact)
                fact = re.sub(r'(self|slip|page|list|nodes)\.(old|now)', r'\1', fact)
                facts[fact].append(f)
    for fact, fs in sorted(facts.items(), key=lambda p: -len(p[1])):
        if len(fs) >= 3:
            for f in fs:
                found(5, f'required by {len(fs)} functions: {fact}', f.where())
    pairs = collections.defaultdict(set)
    for f in all_functions:
        ps = [p for p in parameters(f.text)]
        for i in range(len(ps)):
            for j in range(i + 1, len(ps)):
                pairs[(ps[i], ps[j])].add(f.where())
    for (a, b), fs in sorted(pairs.items(), key=lambda p: -len(p[1])):
        if len(fs) >= 3:
            for w in sorted(fs):
                found(5, f'{len(fs)} functions take together: {a}, {b}', w)


def twins(all_functions):
    """Functions of one crate whose signatures are alike but for names and numbers, and whose bodies' first lines are too."""
    shapes = collections.defaultdict(list)
    for path, lines in files():
        k = 0
        while k < len(lines):
            m = re.match(r'(\s*)(pub(\([a-z]+\))? )?(extern "C" )?fn (\w+)', lines[k])
            if not m or 'tests' in path.split('/')[0]:
                k += 1
                continue
            indent, start = m.group(1), k
            while k < len(lines) and lines[k].rstrip() != indent + '}' and not (lines[k].rstrip().endswith(';') and k == start):
                k += 1
            text = [plain(x).strip() for x in lines[start:k] if not re.match(r'\s*(requires|ensures)', x)]
            text = ' '.join(text)
            text = re.sub(r'"[^"]*"', 'S', text)
            text = re.sub(r'\b\d[\d_]*\b', 'N', text)
            text = re.sub(r'\b(?!fn\b|let\b|mut\b|self\b|for\b|in\b|if\b|else\b|match\b|return\b|Some\b|None\b|Ok\b|Err\b|pub\b|usize\b|bool\b)[A-Za-z_]\w*\b', 'w', text)
            if len(text) > 60:
                shapes[(path.split('/')[0], text)].append(f'{path}:{start + 1} {m.group(5)}')
            k += 1
    for (crate, _), fs in shapes.items():
        if len(fs) >= 2:
            for f in fs:
                found(2, 'functions alike but for names and numbers', f + '  ~ ' + ', '.join(x.split()[-1] for x in fs if x != f))


def proofs():
    answers = lines = 0
    for p in glob.glob(os.path.join(TOP, 'crates', '*', 'proofs', '**', '*.antt'), recursive=True):
        text = open(p).read()
        lines += text.count('\n')
        if os.path.basename(p) in ('Answers.antt', 'Invariants.antt'):
            answers += len(re.findall(r'^(?:abbrev )?pub [\w-]+ : goal\.', text, re.M))
    return answers, lines


def main():
    everything = []
    for path, lines in files():
        if 'queue_bench_c/' in path:
            continue
        by_line(path, lines)
        enums(path, lines)
        everything += list(functions(path, lines))
    contracts([f for f in everything if 'tests' not in f.path.split('/')[0]])
    twins(everything)
    for point in sorted(FOUND):
        total = set()
        print(f'point {point}')
        for kind, places in FOUND[point].items():
            print(f'  {len(places):4}  {kind}')
            if LIST:
                for w in places:
                    print(f'          {w}')
    a, n = proofs()
    print(f'point 8\n  {a:4}  answers and invariants in proofs/\n  {n:4}  lines in proofs/')


main()
