#!/usr/bin/env python3
"""Which public functions have no must-fail edit in their own code?

`tools/edits.py [CRATE..]` reads crates/NAME/src and crates/NAME/must-fail/*.edit. For each edit it finds the function whose text
holds the edited line. It lists the public functions, and the methods of impls of traits, that no edit of the gate touches,
and those that only an edit in planted/ touches. It proves nothing and is no part of the gate.
"""
import re
import sys
from pathlib import Path

ROOT = Path(__file__).resolve().parent.parent
HEAD = re.compile(r'^(\s*)(pub(?:\([a-z]+\))? )?(?:const )?(?:extern "C" )?fn (\w+)')


def functions(path):
    """(name, first line, last line, public) of every function with a body in a file; lines from 0."""
    lines = path.read_text().split('\n')
    found, impl_public, in_trait = [], False, False
    i = 0
    while i < len(lines):
        line = lines[i]
        if line and not line[0].isspace():
            impl_public = bool(re.match(r'^impl\b.*\bfor\b', line))
            in_trait = bool(re.match(r'^pub trait\b|^trait\b', line))
        head = HEAD.match(line)
        if head:
            indent = head.group(1)
            end = i
            # a body begins on a line that is the indent and '{', or ends the head's line, and ends at the indent and '}'
            while end < len(lines) and not (lines[end] == indent + '}' or (end > i and re.match(re.escape(indent) + r'\S.*;$', lines[end]) and in_trait)):
                end += 1
            public = head.group(2) == 'pub ' or (impl_public and bool(indent))
            found.append((head.group(3), i, min(end, len(lines) - 1), public))
            i = end
        i += 1
    return found, lines


def edits(folder):
    """(label, file, pairs of old and new text) of every edit; a later pair applies to what the earlier ones made."""
    for edit in sorted(folder.glob('*.edit')):
        name, old, pairs = None, None, []
        for line in edit.read_text().split('\n'):
            if line.startswith('file: '):
                name = line[6:]
            elif line.startswith('old: '):
                old = line[5:]
            elif line.startswith('new:'):
                pairs.append((old, line[5:]))
        yield edit.stem, name, pairs


def main(names):
    crates = names or [p.name for p in sorted((ROOT / 'crates').iterdir()) if (p / 'src' / 'lib.rt').exists()]
    missing = 0
    for crate in crates:
        base = ROOT / 'crates' / crate
        if crate.endswith('_tests') or not (base / 'src').exists():
            continue
        table = {str(p.relative_to(base)): functions(p) for p in sorted((base / 'src').rglob('*.rt'))}
        touched = {'must-fail': set(), 'planted': set()}
        for kind in touched:
            for label, name, pairs in edits(base / kind):
                if name not in table:
                    print(f'{crate}/{kind}/{label}: no such file {name}')
                    continue
                found, lines = table[name]
                text = '\n'.join(lines)
                for old, new in pairs:
                    if text.count(old) != 1:
                        print(f'{crate}/{kind}/{label}: its old text stands {text.count(old)} times in {name}')
                        break
                    at = text[:text.index(old)].count('\n')
                    text = text.replace(old, new)
                    for fn, first, last, public in found:
                        if first <= at <= last:
                            touched[kind].add((name, fn, first))
        for name, (found, _) in table.items():
            for fn, first, last, public in found:
                if public and (name, fn, first) not in touched['must-fail']:
                    missing += 1
                    where = ' (planted only)' if (name, fn, first) in touched['planted'] else ''
                    print(f'{crate}: {name}: {fn}{where}')
    print(f'public functions without an edit in the gate: {missing}')


main(sys.argv[1:])
