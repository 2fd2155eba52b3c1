#!/usr/bin/env python3
"""Spells the repository's own names as today's Rattle does: definitions, lemmas, fields and constructors in snake case.

usage: names.py            turns every file of crates/ by names.tsv beside this file: run it once, straight after the kit's port.py
       names.py --make     writes names.tsv anew from the declarations in crates/ (on the tree that the kit's port.py left)

names.tsv has a name and its new spelling on each line. A name that would fall together with another gets _lem, or the word given in
BY_HAND. Rust items, strings, and names that a file takes from the kit's libraries stay. Names that stand in comments with dashes are turned
only in backticks."""
import collections
import os
import re
import sys

HERE = os.path.dirname(os.path.abspath(__file__))
ROOT = os.path.dirname(os.path.dirname(HERE))
TABLE = os.path.join(HERE, 'names.tsv')
WORD = r"[^\s(){}.;,@\"«»\[\]|]+"
DECLARED = re.compile(r'^((?:abbrev |unfoldable |pub )*)([^\s:]+)((?: \{[^}]*\})*) : (.*)')
MEMBER = re.compile(r'^ {2,}(?:abbrev )?(?:pub )?([^\s:(){}]+)((?: \{[^}]*\})*) : (.*)')
TYPE = re.compile(r'^(?:abbrev |unfoldable |pub )*(data|record|ruleset) (\S+)')
MADE = re.compile(r'^(returns|loop|invariant|decreases)(-|$)|-spec$|-requires(-\d+)?$')
BY_HAND = {'is-nan': 'is_nan_lem', 'firstOf': 'first_unknown', 'first_of': 'first_unknown'}
# Lemmas of one file that had a definition's new spelling.
IN_FILE = {
    'tonekit_decimal/proofs/Nearest.antt': {'reads_in': 'reads_in_lem'},
    'tonekit_sheet_laws/proofs/Rows.antt': {'row_fine': 'row_fine_lem'},
    'tonekit_output/proofs/Fits.antt': {'shape_size': 'shape_size_lem'},
}


def files(root, ends=('.antt', '.rt')):
    for folder, dirs, names in os.walk(os.path.join(root, 'crates')):
        dirs[:] = sorted(d for d in dirs if d != 'out')
        for name in sorted(names):
            if name.endswith(ends):
                yield os.path.join(folder, name)


def text_of(path):
    with open(path, encoding='utf-8') as file:
        return file.read()


def snake(name):
    words = re.sub(r'(?<=[a-z0-9])[A-Z]', lambda m: '_' + m[0].lower(), name)
    return words.replace('-', '_').replace('′', "'")


def declarations(root):
    """Each name that a file of specs/ or proofs/ declares: its kinds and files. What a function's own proof names by the kit's rule is left."""
    found = collections.defaultdict(set)
    for path in files(root, ('.antt',)):
        own = path.endswith('Proof.antt')
        where = 'specs' if '/specs/' in path else 'own' if own else 'proofs'
        for line in text_of(path).split('\n'):
            m = TYPE.match(line)
            if m:
                continue
            m = DECLARED.match(line)
            if m and not (own and (MADE.search(m[2]) or 'tie.' in m[4])):
                found[m[2]].add((where + ' def', path))
                continue
            m = MEMBER.match(line)
            if m and not own:
                found[m[1]].add((where + ' field', path))
    return {k: v for k, v in found.items() if not k[0].isupper() and re.match(r"[\w']", k)}


def make(root):
    found = declarations(root)
    turned = {k: BY_HAND.get(k, snake(k)) for k in found if (k in BY_HAND or snake(k) != k) and not re.search(r'[≤<≡→+*◌]', k)}
    groups = collections.defaultdict(list)
    for k in found:
        groups[turned.get(k, k)].append(k)
    for new, olds in sorted(groups.items()):
        if len(olds) < 2:
            continue
        # the definition keeps the plain word; else the name that has it already
        first = [k for k in olds if any(kind == 'specs def' for kind, _ in found[k])] or [k for k in olds if k == new] or olds
        for k in olds:
            if k != first[0] and k in turned:
                turned[k] = new + '_lem'
        if new in olds and new != first[0]:
            print(f'fall together: {new}, declared as {sorted(found[new])}, with {first[0]}, declared as {sorted(found[first[0]])}')
    news = collections.Counter(turned.values())
    for k, v in turned.items():
        if news[v] > 1:
            print('fall together:', k, v)
    with open(TABLE, 'w', encoding='utf-8') as file:
        file.write(''.join(f'{k}\t{v}\n' for k, v in sorted(turned.items())))
    print(len(turned), 'names')


def table():
    with open(TABLE, encoding='utf-8') as file:
        return dict(line.rstrip('\n').split('\t') for line in file if line.strip())


USE = re.compile(r'^\s*(?:pub |ghost )*use ([^\s{;]+)\.?(\{[^}]*\})?', re.M)


def lent(text, own):
    """The names that a file takes from the kit's libraries."""
    names = set()
    for m in USE.finditer(text):
        steps = m[1].rstrip('.').split('.')
        if steps[0] == 'Rattle' and len(steps) > 1 and steps[1] in own:
            continue
        if m[2]:
            for it in m[2].strip('{}').split(','):
                names.add(it.strip().split(' as ')[0])
        else:
            names.add(steps[-1])
    return names


def turn_words(text, names):
    return re.sub(WORD, lambda m: names.get(m[0], m[0]), text)


def turn_comment(text, names):
    camel = {k: v for k, v in names.items() if '-' not in k and k != k.lower()}
    text = re.sub(r'`[^`]*`', lambda m: re.sub(r"[\w'′-]+", lambda w: names.get(w[0], w[0]), m[0]), text)
    return re.sub(r"(?<![\w/-])[\w'′]+(?![\w-])", lambda m: camel.get(m[0], m[0]), text)


def turn_antt(text, names):
    lines = []
    for line in text.split('\n'):
        m = re.match(r'^(.*?)(?:(?<=\s)|^)(-- .*)$', line)
        if m:
            lines.append(turn_words(m[1], names) + turn_comment(m[2], names))
        else:
            lines.append(turn_words(line, names))
    return '\n'.join(lines)


def turn_rust(text, names):
    """Clauses and ghost imports; comments; never strings or code."""
    out, clause = [], 0
    for line in text.split('\n'):
        bare = line.strip()
        if bare.startswith('//'):
            out.append(turn_comment(line, names))
            continue
        if bare.startswith('ghost use') or re.match(r'(requires|ensures|ghost)\b', bare):
            clause += 1
        if clause:
            out.append(turn_words(line, names))
            depth = sum(l.count('{') - l.count('}') for l in out[-clause:])
            clause = 0 if depth <= 0 else clause + 1
            continue
        out.append(line)
    return '\n'.join(out)


def turn(root):
    names = table()
    own = set(os.listdir(os.path.join(root, 'crates')))
    changed = 0
    for path in files(root):
        text = text_of(path)
        stay = lent(text, own)
        here = {k: v for k, v in names.items() if k not in stay} | IN_FILE.get(os.path.relpath(path, os.path.join(root, 'crates')), {})
        new = turn_antt(text, here) if path.endswith('.antt') else turn_rust(text, here)
        for k in stay & set(names.values()):
            if re.search(rf'(?<![\w.-]){re.escape(k)}(?![\w-])', new) and any(v == k and re.search(rf"(?<![\w.'-]){re.escape(o)}(?![\w'-])", text) for o, v in here.items()):
                print(f'{path}: {k} is a name of the library here too')
        if new != text:
            with open(path, 'w', encoding='utf-8') as file:
                file.write(new)
            changed += 1
    print(changed, 'files turned')


if __name__ == '__main__':
    root = sys.argv[2] if len(sys.argv) > 2 else ROOT
    (make if sys.argv[1:2] == ['--make'] else turn)(root)
