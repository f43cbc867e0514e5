#!/usr/bin/env python3
"""Figures of every crate: lines of code, definitions, laws and proofs, and must-fail edits.

usage: figures.py [MOST]   MOST crates, longest first (all of them where it is not given)"""
import pathlib
import re
import sys


def lines(files):
    return sum(len(f.read_text().splitlines()) for f in files)


def crate(folder):
    """Lines of code, definitions, laws, proofs; and the number of edits. A file of proofs/ that stands in no function's folder holds laws."""
    specs = sorted((folder / 'specs').rglob('*.antt'))
    laws = [f for f in specs if re.search(r'(Laws|Moves|After|Goes|Kept)\.antt$', f.name)] + sorted((folder / 'proofs').glob('*.antt'))
    proofs = [f for f in (folder / 'proofs').rglob('*.antt') if f not in laws]
    return (lines((folder / 'src').rglob('*.rt')), lines(f for f in specs if f not in laws), lines(laws), lines(proofs),
            len(list((folder / 'must-fail').glob('*.edit'))))


def main(arguments):
    if len(arguments) > 1 or arguments and not arguments[0].isdigit():
        sys.exit('usage: figures.py [MOST]')
    folders = [f for f in sorted(pathlib.Path('crates').iterdir()) if (f / 'src').is_dir()]
    rows = sorted(((f.name, *crate(f)) for f in folders), key=lambda row: -sum(row[1:5]))
    print('| crate | code | definitions | laws | proofs | edits |\n|---|---|---|---|---|---|')
    for row in rows[:int(arguments[0])] if arguments else rows:
        print('| {} | {} | {} | {} | {} | {} |'.format(*row))
    print('| all {} | {} | {} | {} | {} | {} |'.format(len(rows), *(sum(row[i] for row in rows) for i in range(1, 6))))


main(sys.argv[1:])
