#!/usr/bin/env python3
"""Brings the names of definitions and lemmas to snake case, as the standard library spells them: `withWord32` is `with_word32`, `copied-more`
is `copied_more`, and a dash joins two names, as in `length-with_word32`. Names of types, of modules and of what src/ declares stay.

usage: respell.py [--list]   at the top of the repository; --list prints the names and changes nothing"""
import collections
import pathlib
import re
import sys

NAME = re.compile(r"(?<![\w'₀-₉◌«-])[^\W\d_][\w'₀-₉]*(?:-[\w'₀-₉<>≤≡]+)*(?![\w'₀-₉◌»]|-[\w])")
DECLARED = re.compile(r"^\s*((?:(?:unfoldable|abbrev|pub)\s+)*)([^\s(){}:;,.|]+)\s+:\s", re.M)
STD_WORDS = {'length', 'get_or', 'set', 'take', 'drop', 'cond', 'map', 'append', 'sum'}


def antt_files(root):
    return sorted(f for f in (root / 'crates').rglob('*.antt') if 'out' not in f.relative_to(root / 'crates').parts)


def imported(text):
    """What a file brings in from the libraries, not from this repository."""
    found = set()
    for module, names in re.findall(r'^(?:ghost )?use ([\w.+·]+)\.\{([^}]*)\}', text, re.M):
        if not (module.startswith('Rattle.') and not re.match(r'Rattle\.(std|core)\b', module)):
            found |= {n.split(' as ')[0].strip() for n in names.split(',')}
    return found


def declared(root):
    """Every name that specs/ or a file of lemmas declares, and those of definitions."""
    names, definitions, foreign = set(), set(), set()
    for f in antt_files(root):
        text = re.sub(r'--.*', '', f.read_text())
        foreign |= imported(text)
        if f.name == 'Proof.antt':
            continue
        for marks, name in DECLARED.findall(text):
            names.add(name)
            if 'unfoldable' in marks or 'abbrev' in marks:
                definitions.add(name)
    return names - foreign, definitions, foreign


def snake(word):
    return re.sub(r"([a-z0-9₀-₉'])([A-Z])", lambda m: m.group(1) + '_' + m.group(2).lower(), word)


def respelled(name, definitions):
    parts = name.split('-')
    both = len(parts) == 2 and set(parts) <= definitions | STD_WORDS
    return ('-' if both else '_').join(snake(p) for p in parts)


def renamings(root):
    """Old names and new ones, two tables: of every file, and of specs/ alone (names that were in snake case already and would fall together
    with a definition's new one: they, and lemmas that would, get `_lem`)."""
    names, definitions, foreign = declared(root)
    turned = {n: respelled(n, definitions) for n in names if re.match(r'[a-z]', n) and ('-' in n or re.search('[a-z0-9][A-Z]', n))}
    turned = {n: to for n, to in turned.items() if n != to}
    of_words = {to for n, to in turned.items() if '-' not in n}
    standing = {n: n + '_lem' for n in of_words if n in names and n not in definitions}
    kept = (names - set(turned) - set(standing)) | foreign
    for n in sorted(n for n in turned if '-' in n):
        if turned[n] in of_words or turned[n] in kept:
            turned[n] += '_lem'
    taken = collections.Counter(turned.values())
    taken.update(standing.values())
    for n, to in (turned | standing).items():
        if taken[to] > 1 or to in kept:
            sys.exit(f'respell: {n} would be {to}, which is a name already')
    return turned, standing


def turn(text, turned, comments):
    def one(m):
        return turned.get(m.group(0), m.group(0))

    if not comments:
        return NAME.sub(one, text)
    plain = {n: to for n, to in turned.items() if '-' not in n}
    lines = []
    for line in text.split('\n'):
        code, mark, comment = line.partition(comments)
        comment = NAME.sub(lambda m: plain.get(m.group(0), m.group(0)), comment)
        comment = re.sub(r'`[^`]*`', lambda m: NAME.sub(one, m.group(0)), comment)
        lines.append(NAME.sub(one, code) + mark + comment)
    return '\n'.join(lines)


def main():
    root = pathlib.Path('.')
    turned, standing = renamings(root)
    if sys.argv[1:] == ['--list']:
        for n, to in sorted((turned | standing).items()):
            print(n, to)
        return
    plain = {n: to for n, to in turned.items() if '-' not in n}
    for f in antt_files(root):
        text = f.read_text()
        new = turn(text, turned | standing if 'specs' in f.parts else turned, '--')
        if new != text:
            f.write_text(new)
    for f in sorted((root / 'crates').rglob('src/**/*.rt')):
        text = f.read_text()
        new = turn(text, plain, '')
        if new != text:
            f.write_text(new)


main()
