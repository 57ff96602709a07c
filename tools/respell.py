#!/usr/bin/env python3
"""Respells the repository's own definitions and lemmas as today's Rattle spells names: words in snake case, a dash only
between two names, types and modules in camel case. Run once at the top, after the kit's port.py.

Functions of src/, exported C names, strings, inputs and outputs keep their names: a name of src/ in snake case is never
a name that this script changes. It prints the names that would fall together and how each was kept apart."""
import glob
import re

HEAD = re.compile(r"^( *)((?:(?:abbrev|unfoldable|pub|data|record|infixr|infixl)\s+)*)"
                  r"([^\s(){}\[\],;.λ:=→∷]+)\s*(:|\(|\{)")
WORDS = {'module', 'use', 'open', 'mod', 'where', '|', 'let', 'in', 'elim', 'pub'}
TOKEN = re.compile(r"[A-Za-z_][A-Za-z0-9_']*(?:-[A-Za-z0-9_'?]+)*")
CAMEL = re.compile(r'[a-z0-9][A-Z]')
# Words of the papers' examples, and letters of words, which are no names.
NOT_NAMES = {'aA', 'aAa', 'aAb', 'aAbBc', 'aB', 'aaBBBc', 'abAB', 'abBA', 'acbABC', 'adbAcACaBD', 'bcCb', 'cC',
             'zzzzzzzzzzZ'}
# Names that say more when they are respelled by hand.
BY_HAND = {'lentL': 'lent_log', 'lentP': 'lent_product', 'lentW': 'lent_words', 'get_d_front': 'get_or-front',
           'getD-rest': 'get_or-rest', 'commonPrefix-getD': 'common_prefix-get_or', 'inverse-getD': 'inverse-get_or'}
# Functions of the library that lemmas are named after.
LIBRARY = {'length', 'take', 'drop', 'append', 'map', 'get_or', 'set', 'reverse', 'cons', 'nil', 'snoc', 'suc', 'min'}


def snake(word):
    word = re.sub(r'([a-z0-9])([A-Z])', r'\1_\2', word)
    return word if word[:1].isupper() else word.lower()


def part(word):
    """A fact keeps its capital wherever it stands in a name."""
    return word if word[:1].isupper() else snake(word)


def own_names():
    definitions, lemmas = set(), set()
    for path in sorted(glob.glob('crates/*/specs/*.antt') + glob.glob('crates/*/proofs/*.antt')):
        names = definitions if '/specs/' in path else lemmas
        for line in open(path, encoding='utf-8'):
            code = line.split('--')[0]
            if code.startswith(('use ', 'pub mod', 'mod ')):
                continue
            found = HEAD.match(code)
            if found and found.group(3) not in WORDS:
                names.add(found.group(3))
    return definitions, lemmas


def joined(name, known):
    parts = [part(p) for p in name.split('-')]
    out = parts[0]
    for left, right in zip(parts, parts[1:]):
        out += ('-' if left in known and right in known else '_') + right
    return out


def table():
    definitions, lemmas = own_names()
    known = {part(n) for n in definitions if '-' not in n} | LIBRARY
    words = set()
    for path in glob.glob('crates/**/*.antt', recursive=True) + glob.glob('crates/**/*.rt', recursive=True):
        words |= set(TOKEN.findall(open(path, encoding='utf-8').read()))
    new = dict(BY_HAND)
    for name in sorted(definitions | lemmas | {w for w in words if CAMEL.search(w) and w[0].islower() and '-' not in w}):
        if name in NOT_NAMES or name in new:
            continue
        if '-' in name or (CAMEL.search(name) and name[0].islower()):
            to = joined(name, known)
            if to != name:
                new[name] = to
    # Where names fall together, the definition or field keeps the name, and the lemma gets `_lem`.
    own = definitions | lemmas
    together = {}
    for name in sorted(own | set(new)):
        together.setdefault(new.get(name, name), []).append(name)
    for to, names in sorted(together.items()):
        first, *others = sorted(names, key=lambda n: (n not in definitions, not CAMEL.search(n), n))
        for name in others:
            new[name] = to + '_lem'
            print('kept apart:', name, '->', new[name], 'beside', first, '->', to)
    return new


def respell(text, new, all_names):
    """Of code and prose only names with a capital inside are turned, since only those are never a function of src/."""
    def turn(m):
        name = m.group(0)
        if not all_names and ('-' in name or not CAMEL.search(name)):
            return name
        return new.get(name, name)
    return TOKEN.sub(turn, text)


def respell_line(line, new, comment, all_names):
    at = line.find(comment)
    if comment == '//':
        quoted = re.split(r'("(?:[^"\\]|\\.)*")', line if at < 0 else line[:at])
        code = ''.join(q if q.startswith('"') else respell(q, new, all_names) for q in quoted)
    else:
        code = respell(line if at < 0 else line[:at], new, all_names)
    if at < 0:
        return code
    said = line[at:]
    said = re.sub(r'`[^`]*`', lambda m: respell(m.group(0), new, True), said)
    return code + respell(said, new, False)


def main():
    new = table()
    for path in sorted(glob.glob('crates/**/*.antt', recursive=True)):
        turn_file(path, new, '--', True)
    for path in sorted(glob.glob('crates/**/*.rt', recursive=True)):
        turn_file(path, new, '//', False)
    for path in sorted(glob.glob('crates/*/must-fail/*.edit')):
        turn_file(path, new, '\0', True)
    for path in ['README.md', 'CONTRIBUTING.md'] + sorted(glob.glob('docs/*.md')):
        text = open(path, encoding='utf-8').read()
        turned = re.sub(r'`[^`\n]*`', lambda m: respell(m.group(0), new, True), text)
        if turned != text:
            open(path, 'w', encoding='utf-8').write(turned)
    print(len(new), 'names respelled')


def turn_file(path, new, comment, all_names):
    text = open(path, encoding='utf-8').read()
    turned = '\n'.join(respell_line(line, new, comment, all_names) for line in text.split('\n'))
    if turned != text:
        open(path, 'w', encoding='utf-8').write(turned)


if __name__ == '__main__':
    main()
