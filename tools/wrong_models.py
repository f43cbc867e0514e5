#!/usr/bin/env python3
"""Wrong models: which of them the programs' expected outputs catch.

tools/wrong-models/*.edit are faults of 01's own words, each an edit of the plain model (host/runs/model) in the form of the must-fail edits: a title
behind `#`, then `file:`, `old:` and `new:`, once or more often. A wrong model is caught by a program where it does not say what that program must
print (crates/edges/stdout, crates/replay/stdout, crates/block_edges/stdout), or stops.

usage: wrong_models.py             builds and runs every one: what catches each, and the sums
       wrong_models.py NAME..      those alone, with the first line that differs
       wrong_models.py --check     only that each edit applies: its old text stands once in its file"""
import concurrent.futures
import os
import pathlib
import shutil
import subprocess
import sys

ROOT = pathlib.Path(__file__).resolve().parent.parent
MODEL = ROOT / 'host/runs/model'
EDITS = ROOT / 'tools/wrong-models'
OUT = ROOT / 'target/wrong-models'
PROGRAMS = ('edges', 'replay', 'block_edges')
RUSTC = os.environ.get('RUSTC', 'rustc')
FLAGS = ['--edition', '2024', '--cap-lints', 'allow', '-C', 'debuginfo=0']
MAIN = 'mod lines;\nmod model;\n\n' + (ROOT / 'host/runs/edges.rs').read_text().replace('runs::model', 'model').replace('//!', '//')


def edit_of(path):
    """An edit: its title, and each file with its old and new text."""
    title, edits = None, []
    for line in path.read_text().split('\n'):
        key, _, value = line.partition(': ')
        if line.startswith('# ') and title is None:
            title = line[2:]
        elif key == 'file':
            edits.append([value, None, None])
        elif key in ('old', 'new') and edits:
            edits[-1][1 if key == 'old' else 2] = value
        elif line.strip():
            raise SystemExit(f'{path}: a line that is none of `#`, `file:`, `old:`, `new:`: {line}')
    if not title or not edits or any(None in edit for edit in edits):
        raise SystemExit(f'{path}: no title, or an edit without `old:` or `new:`')
    return title, edits


def applied(path, model):
    """Writes an edit's changes into a copy of the model."""
    for file, old, new in edit_of(path)[1]:
        text = (model / file).read_text()
        if text.count(old) != 1:
            raise SystemExit(f'wrong models: {path.name}: its old text stands {text.count(old)} times in {file}')
        (model / file).write_text(text.replace(old, new))


def build(name, edit=None):
    """The program that says what a model says: of the plain one, or of a wrong one."""
    folder = OUT / name
    shutil.rmtree(folder, ignore_errors=True)
    shutil.copytree(MODEL, folder / 'model')
    shutil.copy(ROOT / 'host/runs/lines.rs', folder)
    (folder / 'main.rs').write_text(MAIN)
    if edit:
        applied(edit, folder / 'model')
    # the model takes types of the wrapper and makes no call of the port: its calls stay unresolved
    made = subprocess.run([RUSTC, *FLAGS, '--extern', f'puffwidget={OUT}/libpuffwidget.rlib', '-C', 'link-arg=-Wl,--unresolved-symbols=ignore-all',
                           str(folder / 'main.rs'), '-o', str(folder / 'said')], capture_output=True, text=True)
    if made.returncode:
        raise SystemExit(f'wrong models: {name} is no program:\n{made.stderr}')
    return folder / 'said'


def said(program, which):
    """What a model says that a program prints, or None where it stops."""
    held = ROOT / 'crates' / which
    arguments = ['--sizes', str(held / 'stdout')] if which == 'block_edges' else [str(held / 'stdin')]
    try:
        run = subprocess.run([str(program), *arguments], capture_output=True, timeout=20)
    except subprocess.TimeoutExpired:
        return None
    return run.stdout if run.returncode == 0 else None


def caught(path):
    """The programs that catch a wrong model, each with the first line that differs."""
    program = build(path.stem, path)
    found = {}
    for which in PROGRAMS:
        wanted, got = (ROOT / 'crates' / which / 'stdout').read_bytes(), said(program, which)
        if got != wanted:
            found[which] = first_difference(wanted, got)
    shutil.rmtree(OUT / path.stem)
    return found


def first_difference(wanted, got):
    if got is None:
        return 'it stops'
    for number, (a, b) in enumerate(zip(wanted.split(b'\n'), got.split(b'\n')), 1):
        if a != b:
            return f'line {number}: {a.decode()[:90]!r}, not {b.decode(errors="replace")[:90]!r}'
    return 'it ends elsewhere'


def main(arguments):
    paths = sorted(EDITS.glob('*.edit'))
    if arguments == ['--check']:
        for path in paths:
            shutil.rmtree(OUT / 'check', ignore_errors=True)
            shutil.copytree(MODEL, OUT / 'check')
            applied(path, OUT / 'check')
        print(f'wrong models: each of the {len(paths)} edits applies to the model')
        return 0
    if arguments:
        paths = [EDITS / f'{name}.edit' for name in arguments]
        unknown = [path.stem for path in paths if not path.exists()]
        if unknown:
            raise SystemExit(f'usage: wrong_models.py [--check | NAME..]; no edit in tools/wrong-models is called {", ".join(unknown)}')
    OUT.mkdir(parents=True, exist_ok=True)
    subprocess.run([RUSTC, *FLAGS, '--crate-type', 'rlib', '--crate-name', 'puffwidget', str(ROOT / 'host/src/lib.rs'), '-o', f'{OUT}/libpuffwidget.rlib'], check=True)
    plain = build('plain')
    for which in PROGRAMS:
        if said(plain, which) != (ROOT / 'crates' / which / 'stdout').read_bytes():
            raise SystemExit(f'wrong models: crates/{which}/stdout is not what the model says')
    with concurrent.futures.ThreadPoolExecutor(max_workers=int(os.environ.get('JOBS', '2'))) as pool:
        results = dict(zip([path.stem for path in paths], pool.map(caught, paths)))
    for name, found in results.items():
        print(f'{name}: {", ".join(found) or "NOT CAUGHT"}')
        if arguments:
            for which, why in found.items():
                print(f'  {which} {why}')
    edges = [name for name, found in results.items() if 'edges' in found]
    others = [name for name, found in results.items() if found and 'edges' not in found]
    missed = [name for name, found in results.items() if not found]
    print(f'wrong models: {len(results)} planted, {len(edges)} caught by edges, {len(others)} by replay or block_edges only, not caught: {", ".join(missed) or "none"}')
    return 1 if missed else 0


if __name__ == '__main__':
    sys.exit(main(sys.argv[1:]))
