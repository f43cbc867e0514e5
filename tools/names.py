"""The names in a definition, in a statement, in a contract.

A name is one of: a name of the same file, an imported one, a bound variable, a field, a word of the language. Whatever is none of these is an
error, so that no name is passed over in silence."""
import re

from antt import PLAIN, File, Source, Unresolved

WORDS = set('λ let in record where elim abstract Type → = : ↦ | × ⊥ Unit pub'.split())
# what a contract's text has besides: the answer
CONTRACT = {'result'}
# where the paths of the kit's own modules begin (those of this repository's crates begin with Rattle too)
KIT = {'Rattle', 'mathlib', 'lib', 'Prim'}


class Names:
    """The names in a text: what each stands for, and which are the kit's."""

    TOKEN = re.compile(r'[(){}\[\];,|]|[^\s(){}\[\];,|]+')

    def __init__(self, repository, scope, where, own=()):
        self.repository, self.scope, self.where, self.own = repository, scope, where, set(own)
        self.items, self.kit, self.doubtful = [], set(), set()

    def lookup(self, name):
        """The items that a name of this file stands for; None where it is none of the file's names."""
        for form in (name, f'◌{name}◌', f'◌{name}', f'{name}◌'):
            if isinstance(self.scope, File):
                found = self.repository.in_file(self.scope, form)
                if found:
                    return found
            if form in self.scope.imports:
                module, first = self.scope.imports[form]
                if not self.repository.module(module):
                    self.kit.add((module, first))
                return self.repository.imported(module, first)
            if isinstance(self.scope, Source) and form in self.scope.types:
                return [self.scope.types[form]]
        return None

    def qualified(self, token):
        """A case of an enum, `RowAnswer.Null`; a name of a module with another name, `calls.Dropped`; or a module's path and the name in it."""
        first, _, last = token.rpartition('.')
        if self.repository.module(first):
            return self.repository.imported(first, last)
        if first in self.scope.alias:
            return self.repository.imported(self.scope.alias[first], last)
        if first.split('.')[0] in KIT:
            self.kit.add((first, last))
            return []
        found = self.lookup(first)
        if found is None:
            raise Unresolved(f'{self.where}: nothing explains {token}')
        cases = [case for item in found for case in getattr(item, 'cases', []) + getattr(item, 'members', [])]
        if last not in cases:
            raise Unresolved(f'{self.where}: {first} has no {last}')
        return found

    def projected(self, token, bound, maybe):
        """`w.state.columns`: a variable or a definition, and fields of it. None where the first part is neither, but a module or a type."""
        first, _, fields = token.partition('.')
        if first in self.scope.alias or first in KIT or first not in bound | maybe and first[:1].isupper():
            return False
        self.token(first, bound, maybe)
        self.field(fields)
        return True

    def field(self, token):
        for name in token.strip('.').split('.'):
            if not name.isdigit() and name not in self.repository.fields:
                raise Unresolved(f'{self.where}: no record has a field {name}')

    def pattern(self, text):
        """The variables that a pattern binds; its constructors are names."""
        bound = set()
        for token in self.TOKEN.findall(text):
            if token in '(){}[];,|' or token in WORDS or re.match(r'\d', token):
                continue
            if '.' in token:
                self.items += self.qualified(token)
                continue
            found = self.lookup(token) if token != '_' else None
            if found is not None and all(item.kind.endswith('data') or item.kind == 'struct' for item in found):
                self.items += found  # a constructor; of the kit where there is no item
            elif token != '_':
                bound.add(token)
        return bound

    def read(self, text, bound, maybe):
        """The names of a text: `bound` variables are passed over; `maybe` ones too, unless the file has such a name."""
        tokens = self.TOKEN.findall(text)
        braces = []
        for i, token in enumerate(tokens):
            before, after = tokens[i - 1] if i else '', tokens[i + 1] if i + 1 < len(tokens) else ''
            if token in '(){}[];,|':
                if token == '{':
                    braces.append(before == 'record')
                elif token == '}':
                    braces.pop()
                continue
            if after == '=' and braces and before in ('{', ';'):
                if braces[-1] and not token.isdigit():
                    self.field(token)
                continue
            self.token(token, bound, maybe)

    def token(self, token, bound, maybe):
        if token in WORDS or re.fullmatch(r'\d[\d_]*\.?', token) or token == '_':
            return
        if token.startswith('.'):
            self.field(token)
        elif token.endswith('.'):
            self.token(token[:-1], bound, maybe)
        elif '.' in token:
            if not self.projected(token, bound, maybe):
                self.items += self.qualified(token)
        elif token not in bound:
            found = self.lookup(token)
            if found is None and token not in maybe and token not in self.own:
                raise Unresolved(f'{self.where}: nothing explains {token}')
            if found and token in maybe:
                self.doubtful.add(token)
            self.items += found or []


def binders(text):
    """Variables bound within a text: `(a b : T)`, `{a : T}`, `λ a b.`, `let a`."""
    found = set()
    for group in re.findall(r'[({]\s*([^(){}:;=.,]+?)\s*:(?=\s)', text):
        found |= set(group.split())
    for group in re.findall(r'λ\s+([^.]*?)\.(?=\s)', text):
        found |= set(re.sub(r':[^)]*', '', group).replace('(', ' ').replace(')', ' ').split())
    return found | set(re.findall(r'\blet\s+([^\s:=(]+)', text))


def head_of(item):
    """How many lines of an item are its signature."""
    lines = item.code()
    for i, line in enumerate(lines):
        if i and re.match(' {%d}' % item.indent + re.escape(item.name) + r'(\s|$)', line):
            return i
    return len(lines)


def clauses(item):
    """The clauses of a definition, each as its lines."""
    found = []
    for line in item.code()[head_of(item):]:
        if re.match(' {%d}' % item.indent + re.escape(item.name) + r'(\s|$)', line):
            found.append([])
        found[-1].append(line)
    return found


def signature(item):
    return ' '.join(item.code()[:head_of(item)])


def helpers(lines):
    """The functions behind a clause's `where`: their names, and the text of each of their left sides."""
    names, sides, inside = set(), [], False
    for line in lines:
        if re.match(r'^\s*where\s*$', line):
            inside = True
        elif inside and PLAIN.match(line):
            names.add(PLAIN.match(line).group(2))
        elif inside and line.split() and line.split()[0] in names:
            sides.append(re.split(r'\s=(?:\s|$)', line, maxsplit=1)[0])
    return names, sides


def names_of(repository, item, whole):
    """The names in an item: in its statement, and in its clauses where it is a definition."""
    if item.kind == 'struct':
        return struct_names(repository, item)
    scope = repository.files[item.file]
    names = Names(repository, scope, f'{item.path}:{item.line} ({item.name})', own=[item.name] + item.members)
    around = set()
    for _, header in item.around:
        around |= binders(header)
        names.read(re.sub(r'^\s*module \S+|\bwhere$', ' ', header), set(), around)
    names.own |= set(names_in_modules(scope, item))
    text = signature(item)
    if item.kind.endswith(('record', 'data')):
        text = ' '.join(item.code())
    inner = binders(text) | around | set(re.findall(r'\{([^\s{}:]+)\}', text.partition(' :')[0]))
    text = re.sub(r'^\s*(unfoldable|abbrev|pub|record|data)\b', ' ', re.sub(r'^\s*(unfoldable|abbrev|pub) ', ' ', text))
    names.read(text, set(), inner)
    for lines in clauses(item) if whole else []:
        clause(names, item, lines, around)
    return names


def names_in_modules(scope, item):
    """Names of the file itself need no import; fields of a record are its own."""
    return [member for other in scope.items.get(item.name, []) for member in other.members]


def clause(names, item, lines, around):
    """A clause: its left side binds, its right side is read."""
    text = ' '.join(lines)
    side, _, right = re.sub(r'^\s*' + re.escape(item.name), ' ', text, count=1).partition(' =')
    bound = names.pattern(side)
    found, sides = helpers(lines)
    maybe = around | binders(right) | found
    for other in sides:
        maybe |= names.pattern(other.strip().partition(' ')[2])
    for branch in re.findall(r'\|\s+([^|]*?)\s+↦', right):
        maybe |= names.pattern(branch)
    names.read(right, bound, maybe)


def struct_names(repository, declared):
    """The types that a struct or enum has in it."""
    source, _ = repository.declared(declared.crate, declared.name)
    names = Names(repository, source, f'{source.path}:{declared.line} ({declared.name})')
    names.items = types_of(repository, source, declared.names(), names.where)
    return names


def types_of(repository, source, wanted, where):
    found = []
    for name in sorted(wanted):
        if name in source.types:
            found.append(source.types[name])
        elif name in source.uses:
            crate = source.uses[name] if source.uses[name] in repository.crates else source.crate  # else a module of its own
            found.append(repository.declared(crate, name)[1])
        else:
            raise Unresolved(f'{where}: nothing explains the type {name}')
    return found


def contract_names(repository, source, function):
    """The names in a contract, and the types of its parameters and its answer."""
    where = f'{source.path} ({function.name})'
    names = Names(repository, source, where, own=CONTRACT)
    text = function.ensures
    names.read(text, function.parameters, binders(text))
    names.items += types_of(repository, source, function.types, where)
    return names
