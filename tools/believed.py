#!/usr/bin/env python3
"""What must be believed: every definition that a statement speaks of, found by following names.

usage: believed.py            the counts, and the definitions by file in reading order
       believed.py --write    writes that list into docs/DEFINITIONS.md
       believed.py --check    one line and exit 1 if the page is not what this tool would write, or if a name can't be resolved
       believed.py --hard N   the N longest definitions

The statements: the contracts of the exported C functions and of the calls by value behind them, the theorems that docs/THEOREMS.md names in its
tables, and the table of worked examples. tools/antt.py reads the files and stops at a name that nothing explains."""
import pathlib
import re
import sys

import antt
import names as names_in

ROOT = pathlib.Path(__file__).resolve().parent.parent
PAGE = 'docs/DEFINITIONS.md'
BEGIN = '<!-- made by tools/believed.py: do not edit by hand -->'
END = '<!-- end of what tools/believed.py made -->'
# the call by value behind `pw_NAME` is NAME, but for this one
BY_VALUE = {'new': 'new_coalescer', 'strip_new': 'new_strip', 'strip_read': 'read_batch', 'strip_take': 'take_batch'}
# calls that take neither a state nor set-up's wishes
PLAIN = {('outs', 'new_strip')}
# what such a call takes
STATE = {'BatchCoalescer', 'Wanted'}
ORDER = ('history', 'History', 'in_order_lem')
WORKED = ('worked', 'Worked', 'worked')
# premises that every world of a history meets, by a theorem: what they say need not be believed
MET = {('invariant', 'Holding', 'Between'): 'history/History `histories`'}


class Field:
    """One field of a record, named by THEOREMS: only its own line counts."""

    def __init__(self, item, name):
        self.item, self.name, self.kind = item, name, 'field'
        self.key = (item.file, f'{item.name} .{name}', item.line)


def item_of(repository, crate, file, name):
    """A definition or theorem of a file of specs/, or of the file of that name beside the proofs."""
    items = [item for key in (file, f'proofs.{file}') if (crate, key) in repository.files for item in repository.files[(crate, key)].items.get(name, [])]
    if not items:
        raise antt.Unresolved(f'{crate}/{file} has no {name}')
    if len(items) > 1:
        raise antt.Unresolved(f'{crate}/{file} has {name} more than once')
    return items[0]


def follow(repository, start):
    """Everything that names lead to, with the kit's names; `start` are the statements and the names in contracts."""
    seen, kit, todo = {}, set(), [(item, True) for item in start]
    while todo:
        item, stated = todo.pop()
        if item.key in seen or (item.kind != 'field' and (*item.file, item.name) in MET):
            continue
        seen[item.key] = item
        names = read(repository, item, stated)
        kit |= names.kit
        todo += [(other, False) for other in names.items]
    return seen, kit


def read(repository, item, stated):
    """The names in an item. Of a theorem its statement counts, of a proof that a statement names too; a name that is neither a definition nor a
    proof would hide a value: that is an error."""
    if item.kind == 'field':
        return field_names(repository, item)
    theorem = item.kind in ('pub', 'plain')
    if theorem and not stated and not re.search(r' (≡|≢|<|≤) ', names_in.signature(item)):
        raise antt.Unresolved(f'{item.path}:{item.line}: a statement names {item.name}, which is neither a definition nor a proof')
    return names_in.names_of(repository, item, not theorem)


def field_names(repository, field):
    scope = repository.files[field.item.file]
    text = [line for line in field.item.code() if re.match(rf'\s*pub {re.escape(field.name)} :', line)]
    if not text:
        raise antt.Unresolved(f'{field.item.name} has no field {field.name}')
    names = names_in.Names(repository, scope, f'{field.item.path} ({field.item.name})', own=field.item.members)
    header = field.item.code()[0]
    maybe = names_in.binders(text[0]) | names_in.binders(header)
    names.read(re.sub(r'^\s*(pub )?record\s+\S+', ' ', header), set(), maybe)
    names.read(re.sub(r'^\s*pub\s+\S+', ' ', text[0]), set(), maybe)
    return names


# ---- the statements

def exported(repository):
    """The C layer: each exported function; and the call of the same name that takes the state by value, or set-up's wishes."""
    functions = [(source, function) for source in repository.sources.values() for function in source.functions.values()]
    layer = [(source, function) for source, function in functions if function.exported]
    calls = []
    for source, function in layer:
        name = function.name.removeprefix('pw_')
        name = BY_VALUE.get(name, name)
        found = [(other, call) for other, call in functions if call.name == name and ((call.crate, name) in PLAIN or call.types & STATE)]
        if len(found) != 1:
            raise antt.Unresolved(f'{source.path}: {len(found)} functions {name} by value stand behind {function.name}')
        calls += found
    marked = sum(source.text.count('#[unsafe(no_mangle)]') for source in repository.sources.values())
    if not layer or len(layer) != marked:
        raise antt.Unresolved(f'{marked} functions are exported, {len(layer)} of them can be read')
    return layer, calls


def of_contracts(repository, functions):
    items, kit = [], set()
    for source, function in functions:
        if not function.ensures or function.requires:
            raise antt.Unresolved(f'{source.path}: {function.name} has no `ensures`, or a `requires`')
        names = names_in.contract_names(repository, source, function)
        items += names.items
        kit |= names.kit
    return items, kit


def theorems(repository):
    """The theorems in the tables of docs/THEOREMS.md; "the field `f` of `R`" is that field, "and its like" those with the same first or last part."""
    found = []
    for line in (repository.root / 'docs/THEOREMS.md').read_text().split('\n'):
        cells = [cell.strip() for cell in line.split('|')]
        if len(cells) < 5 or '`' not in cells[2] or not re.search('specs/|proofs/', cells[3]):
            continue
        files = files_of(cells[3])
        field = re.search(r'the field `([^`]+)` of `([^`]+)`', cells[2])
        if field:
            found.append(Field(item_of(repository, *files[0], field.group(2)), field.group(1)))
            continue
        names = re.findall(r'`([^`]+)`', cells[2])
        found += [one(repository, files, name) for name in names]
        if 'its like' in cells[2]:
            found += like(repository, files, names)
    if not found:
        raise antt.Unresolved('docs/THEOREMS.md names no theorem')
    return found


def files_of(cell):
    """`history/specs/History, Refusals, room/proofs/BackLaws` as crates and files."""
    crate, before, files = None, '', []
    for part in cell.replace('`', '').split(','):
        part = part.strip().removesuffix('.antt')
        for folder in ('specs', 'proofs'):
            if f'/{folder}/' in part:
                crate, part = part.split(f'/{folder}/')
                before = 'proofs.' if folder == 'proofs' else ''
        files.append((crate, before + part.replace('/', '.')))
    return files


def one(repository, files, name):
    for crate, file in files:
        if (crate, file) in repository.files and name in repository.files[(crate, file)].items:
            return item_of(repository, crate, file, name)
    raise antt.Unresolved(f'docs/THEOREMS.md: {name} is in none of {files}')


def ends(name):
    parts = re.split('[-_]', name)
    return {parts[0], parts[-1]}


def like(repository, files, names):
    wanted = set().union(*map(ends, names))
    return [item for key in files for item in repository.files[key].order if item.kind == 'pub' and item.name not in names and ends(item.name) & wanted]


def rows_of(repository):
    """The rows of the table of counts: a title, and what it begins from."""
    layer, calls = exported(repository)
    value, kit_value = of_contracts(repository, calls)
    bytes_, kit_bytes = of_contracts(repository, layer)
    said = theorems(repository)
    worked = [item_of(repository, *WORKED)]
    order = [item_of(repository, *ORDER)]
    return [
        (f'the statement of `{ORDER[2]}`', order, set()),
        (f'the contracts of the {len(calls)} calls by value', value, kit_value),
        (f'and of the {len(layer)} exported C functions', value + bytes_, kit_value | kit_bytes),
        (f'and the {len(said)} statements of THEOREMS', value + bytes_ + order + said, kit_value | kit_bytes),
        ('and the table of worked examples: all', value + bytes_ + order + said + worked, kit_value | kit_bytes),
    ]


# ---- the page

def definitions(seen):
    return [item for item in seen.values() if item.kind not in ('pub', 'plain', 'field', 'struct')]


def structs(seen):
    return [item for item in seen.values() if item.kind == 'struct']


def counts(items):
    return sum(i.lines() for i in items), sum(i.remarks() for i in items), len({i.file for i in items})


def reading_order(repository, items):
    """Files, leaves first: the crates as crates.txt has them; in a crate its types, then a file behind those that it names."""
    crates = re.findall(r'^(\w+):', (repository.root / 'crates.txt').read_text(), re.M)
    files = sorted({i.file for i in items}, key=lambda f: (crates.index(f[0]), f[1] != 'src', f[1]))
    done = []

    def place(file):
        if file in done:
            return
        for module, _ in repository.files[file].imports.values() if file[1] != 'src' else []:
            other = repository.module(module)
            if other in files and other[0] == file[0] and other != file:
                place(other)
        done.append(file)

    for file in files:
        place(file)
    return done


def made(repository):
    """What the tool writes between the marks."""
    lines = ['', '| from | definitions | lines | comment lines | files | structs and enums | their lines |', '|---|---|---|---|---|---|---|']
    for title, start, first in rows_of(repository):
        seen, kit = follow(repository, start)
        items, types = definitions(seen), structs(seen)
        lines.append('| {} | {} | {:,} | {} | {} | {} | {} |'.format(title, len(items), *counts(items), len(types), counts(types)[0]))
        kit |= first
    lines += ['', '| file | lines | definitions |', '|---|---|---|']
    for file in reading_order(repository, items + types):
        own = sorted((i for i in items + types if i.file == file), key=lambda i: i.line)
        lines.append('| {}/{} | {} | {} |'.format(file[0], file[1].replace('.', '/'), counts(own)[0], ', '.join(f'`{i.name}`' for i in own)))
    lines += ['', 'Premises that every world of a history meets, so that what they say need not be believed: '
              + '; '.join(f'`{key[2]}` ({key[0]}/{key[1]}; by {by})' for key, by in MET.items()) + '.', '']
    modules = {}
    for module, name in kit:
        modules.setdefault(module, []).append(name)
    lines.append("The kit's own names: " + '; '.join(f'{m} {" ".join(f"`{n}`" for n in sorted(modules[m]))}' for m in sorted(modules)) + '.')
    return '\n'.join(lines + [''])


def page(repository, text):
    """The page with the list that is made now."""
    before, begin, rest = text.partition(BEGIN)
    _, end, after = rest.partition(END)
    if not begin or not end:
        raise antt.Unresolved(f'{PAGE} has not the marks between which the list stands')
    return before + begin + '\n' + made(repository) + end + after


def is_use(arguments):
    return arguments in ([], ['--write'], ['--check']) or len(arguments) == 2 and arguments[0] == '--hard' and arguments[1].isdigit()


def main(arguments):
    if not is_use(arguments):
        print('usage: believed.py [--write | --check | --hard N]')
        return 2
    try:
        repository = antt.Repository(ROOT)
        if arguments[:1] == ['--hard']:
            seen, _ = follow(repository, rows_of(repository)[-1][1])
            for item in sorted(definitions(seen), key=lambda i: -i.lines())[:int(arguments[1])]:
                print(item.lines(), '/'.join(item.file), item.name)
        elif arguments in (['--write'], ['--check']):
            old = (ROOT / PAGE).read_text()
            new = page(repository, old)
            if arguments == ['--write']:
                (ROOT / PAGE).write_text(new)
            elif new != old:
                print(f'believed: {PAGE} is not what tools/believed.py writes (run tools/believed.py --write)')
                return 1
            else:
                print(f'believed: {PAGE} names every definition that the statements speak of')
        else:
            print(made(repository))
    except antt.Unresolved as why:
        print(f'believed: {why}')
        return 1
    return 0


if __name__ == '__main__':
    sys.exit(main(sys.argv[1:]))
