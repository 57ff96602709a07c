#!/usr/bin/env python3
"""Lists what changed between two commits, old and new text one above the other: the public functions with their contracts, or the
definitions of specs/. Definitions that differ by the spellings of docs/DESIGN-PASS.md alone are left out.

usage: changes.py OLD NEW functions|definitions"""
import re
import subprocess
import sys

OLD, NEW, WHAT = sys.argv[1:4]
REASONS = """1 SystemUneven 2 SystemTooLong 3 NoLineFeed 4 NeitherLetterNorStop 5 LetterAfterStop 6 TargetOrProductMalformed 7 LogUneven
8 LogRecordMalformed 9 SlotMissing 10 WordsBufferShort 11 ProductBufferShort 12 WordTooLong 13 LogBufferShort 15 SystemNotReduced
16 TextMalformed 17 NestingTooDeep 18 ExponentOutOfRange""".split()
SPELLINGS = {'none': 'None', 'some': 'Some', 'form₁': 'Before', 'form₂': 'InverseBefore', 'form₃': 'After', 'form₄': 'InverseAfter'}


def git(*words):
    return subprocess.run(['git', *words], capture_output=True, text=True).stdout


def files(commit, pattern):
    names = git('ls-tree', '-r', '--name-only', commit, 'crates').split()
    return [name for name in names if re.match(pattern, name)]


def functions(commit):
    """Each public function's signature and clauses, by crate and name."""
    found = {}
    for name in files(commit, r'crates/\w+/src/.*\.rt$'):
        crate, owner = name.split('/')[1], ''
        lines = git('show', f'{commit}:{name}').split('\n')
        for i, line in enumerate(lines):
            block = re.match(r'impl(<[^>]*>)? (.*?) \{', line)
            if block:
                owner = block.group(2) + '::'
            if line == '}':
                owner = ''
            head = re.match(r' *pub (?:extern "C" )?fn (\w+)', line)
            if not head:
                continue
            text = []
            for more in lines[i:]:
                if more.strip() == '{':
                    break
                if more.endswith(' {') and not re.match(r'\s*(requires|ensures)', more):
                    text.append(more.strip()[:-2])
                    break
                text.append(more.strip())
            joined = ' '.join(text).replace('( ', '(').replace(', )', ')')
            found[crate, owner + head.group(1)] = re.sub(r' (requires|ensures)', r'\n    \1', joined)
    return found


def definitions(commit):
    """Each definition's text without comments, by crate and name."""
    found, current = {}, None
    for name in files(commit, r'crates/\w+/specs/.*\.antt$'):
        crate, current = name.split('/')[1], None
        for line in git('show', f'{commit}:{name}').split('\n'):
            if line.startswith(('use ', 'pub use ', 'pub mod ')) or not line.strip() or line.strip().startswith('--'):
                continue
            if line.startswith('infix'):
                continue
            head = re.match(r' *(?:(?:abbrev|unfoldable|data|record) |pub )+([^\s{]+)', line)
            field = re.match(r' +pub \S+ :', line) and not re.match(r' *(abbrev|unfoldable|data|record)', line)
            if head and not field:
                current = (crate, head.group(1))
            if current:
                found[current] = found.get(current, '') + line.strip() + '\n'
    return found


def spelled(text):
    """A definition's text in today's spelling, with the number of a refusal for its reason."""
    for number, reason in zip(REASONS[::2], REASONS[1::2]):
        text = re.sub(rf'\b{reason}\b', number, text)
    for old, new in SPELLINGS.items():
        text = re.sub(rf"(?<![\w.'-]){old}(?![\w'-])", new, text)
    text = re.sub(r'\(Ok _\)|\(Ok tt\)|Ok tt|Ok _', 'Fine', text)
    return re.sub(r'\bErr\b', 'Failed', text)


old, new = (functions(OLD), functions(NEW)) if WHAT == 'functions' else (definitions(OLD), definitions(NEW))
for key in sorted(set(old) | set(new)):
    before, after = old.get(key, 'none').strip(), new.get(key, 'none').strip()
    same = before == after or WHAT == 'definitions' and spelled(before) == spelled(after)
    if not same:
        indent = '\n     ' if WHAT == 'definitions' else '\n'
        print(f'**{key[0]}** `{key[1]}`\n\n```')
        print('old: ' + before.replace('\n', indent))
        print('new: ' + after.replace('\n', indent))
        print('```\n')
