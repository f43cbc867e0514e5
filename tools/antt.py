"""Reads definitions: the items of every specs file and of the theorems beside proofs, the structs and enums of the code, the contracts of its functions. A line that begins no item
is an error."""
import pathlib
import re

# what a borrow is when a call begins, when it ends; what a shared one is; and where it points
BORROW = {'old', 'new', 'now', 'entry', 'ref_ptr'}
PRIMITIVE = {'u8', 'u16', 'u32', 'u64', 'u128', 'usize', 'bool', 'mut', 'pub', 'Option', 'Result', 'static', 'str'}
HEAD = re.compile(r'^( *)(unfoldable pub|unfoldable|abbrev pub|abbrev|pub record|record|pub data|data|pub) +(.+)$')
PLAIN = re.compile(r'^( *)([^\s(){}=:.,;|]+)((?: \{[^}]*\})*) :(?: |$)')


class Unresolved(Exception):
    """A name that nothing explains, or a root that is not there."""


class Item:
    """A definition, record, data type or theorem: where it stands, its text, the parameters of the modules around it."""

    def __init__(self, file, name, kind, line, indent, around):
        self.file, self.name, self.kind, self.line, self.indent, self.around = file, name, kind, line, indent, around
        self.text, self.comments, self.members = [], 0, []

    @property
    def key(self):
        return (self.file, self.name, self.line)

    def is_definition(self):
        return self.kind != 'plain' and self.kind != 'pub'

    def lines(self):
        return len([t for t in self.text if t.strip() and not t.strip().startswith('--')])

    def remarks(self):
        """Comment lines above it and within."""
        return self.comments + len([t for t in self.text if t.strip().startswith('--')])

    def code(self):
        """Its text without comments and without the proof's `unfolding`."""
        return [re.sub(r'(^|\s)--.*', '', t) for t in self.text if not t.strip().startswith('unfolding ')]


class File:
    """A specs file: what it imports, and its items by name."""

    def __init__(self, key, path):
        self.key, self.path = key, path
        self.imports, self.alias, self.items, self.order = {}, {}, {}, []
        text = path.read_text()
        for module, names, alias in re.findall(r'^\s*use ([^\s{]+?)(?:\.\{([^}]*)\}| as (\S+))\s*$', text, re.M):
            if alias:
                self.alias[alias] = module
            for name in filter(None, map(str.strip, names.split(','))):
                first, _, other = name.partition(' as ')
                self.imports[other.strip() or first] = (module, first.strip())
        self.parse(re.sub(r'^\s*use [^\s{]+?(?:\.\{[^}]*\}| as \S+)\s*$', lambda m: '\n' * m.group().count('\n'), text, flags=re.M).split('\n'))

    def parse(self, lines):
        modules, current, comments, opening = [], None, 0, False
        for number, line in enumerate(lines, 1):
            bare = line.strip()
            indent = len(line) - len(line.lstrip())
            if opening:  # a module's parameters go on
                modules[-1] = (modules[-1][0], modules[-1][1] + ' ' + bare)
                opening = not bare.endswith(' where')
                continue
            if bare.startswith('--') and (current is None or indent <= current.indent):
                comments, current = comments + 1, None
                continue
            if not bare:
                comments = comments if current is None else 0
                if current is None:
                    comments = 0
                continue
            if current and (indent > current.indent or bare[0] in ')]}'):
                self.member(current, line, indent)
                current.text.append(line)
                continue
            if current and re.match(r'unfolding |' + re.escape(current.name) + r'(\s|$)', bare) and indent == current.indent:
                current.text.append(line)
                continue
            modules = [m for m in modules if m[0] < indent]
            if bare.startswith('module '):
                modules.append((indent, line))
                comments, current, opening = 0, None, not bare.endswith(' where')
                continue
            if bare.startswith('pub mod ') or bare.startswith('open '):
                current = None
                continue
            current = self.begin(number, line, indent, tuple(modules))
            current.comments, comments = comments, 0

    def begin(self, number, line, indent, around):
        head = HEAD.match(line)
        kind, rest = (head.group(2), head.group(3)) if head else ('plain', line.strip())
        name = re.match(r'[^\s:({]+', rest)
        if not name or (kind == 'plain' and not PLAIN.match(line)):
            raise Unresolved(f'{self.path}:{number}: a line that begins no item: {line.strip()[:60]}')
        item = Item(self.key, name.group(), kind, number, indent, around)
        item.path = self.path
        item.text.append(line)
        self.items.setdefault(item.name, []).append(item)
        self.order.append(item)
        return item

    def member(self, item, line, indent):
        """A record's field or a data type's constructor."""
        if item.kind.endswith('record') or item.kind.endswith('data'):
            found = re.match(r'^\s*(?:pub )?([^:(){}]+?)(?: \{[^}]*\})* :(?: |$)', line)
            if found and indent == item.indent + 2:
                item.members += found.group(1).split()


class Declared:
    """A struct or an enum of the code."""

    def __init__(self, crate, name, text, line):
        self.crate, self.name, self.text, self.line, self.kind = crate, name, text, line, 'struct'
        self.file = (crate, 'src')
        self.fields = re.findall(r'^\s*pub (\w+):', text, re.M)
        self.cases = re.findall(r'^\s{4}(\w+)', text, re.M) if ' enum ' in text.split('{')[0] else []

    @property
    def key(self):
        return (self.file, self.name, self.line)

    def lines(self):
        return len([t for t in self.text.split('\n') if t.strip() and not t.strip().startswith('//')])

    def remarks(self):
        return len([t for t in self.text.split('\n') if t.strip().startswith('//')])

    def names(self):
        body = re.sub(r'//.*', '', self.text)
        body = body[body.index(self.name) + len(self.name):]
        body = re.sub(r'\b\w+\s*:', ' ', body)
        found = set(re.findall(r'\b[A-Za-z_]\w*\b', body)) - PRIMITIVE - set(self.cases)
        return {n for n in found if not n.isdigit()}


class Function:
    """A function of the code with its contract."""

    def __init__(self, crate, name, exported, head, ensures, requires):
        self.crate, self.name, self.exported, self.ensures, self.requires = crate, name, exported, ensures, requires
        inside = head[head.index('(') + 1:]
        self.parameters = set(re.findall(r'(\w+)\s*:', inside))
        self.types = set(re.findall(r'\b[A-Z]\w*\b', inside)) - PRIMITIVE


class Source:
    """A file of the code: types, functions, what it uses."""

    def __init__(self, crate, path):
        self.crate, self.path = crate, path
        text = self.text = path.read_text()
        self.uses = {}
        for used, one, several in re.findall(r'^(?:pub )?use (\w+)::(?:(\w+)|\{([^}]*)\});', text, re.M):
            self.uses |= {name.strip(): used for name in (several or one).split(',') if name.strip()}
        self.imports, self.alias = {}, {}
        for module, names in re.findall(r'^ghost use ([^\s{]+?)\.\{([^}]*)\};', text, re.M):
            for name in filter(None, map(str.strip, names.split(','))):
                first, _, other = name.partition(' as ')
                self.imports[other.strip() or first] = (module, first.strip())
        for module, alias in re.findall(r'^ghost use (\S+) as (\w+);', text, re.M):
            self.alias[alias] = module
        self.types = {}
        for found in re.finditer(r'^pub (?:struct|enum) (\w+)(?:\([^)]*\);|\s*\{.*?^\})', text, re.M | re.S):
            self.types[found.group(1)] = Declared(crate, found.group(1), found.group(), text[:found.start()].count('\n') + 1)
        self.functions = {}
        pattern = r'^(#\[unsafe\(no_mangle\)\]\n)?(?:pub )?(?:extern "C" )?fn (\w+)(?:<[^>]*>)?(\(.*?)^\{'
        for found in re.finditer(pattern, text, re.M | re.S):
            head = found.group(3)
            cut, *clauses = re.split(r'^ *(ensures|requires)(?: \w+)? \{', head, flags=re.M)
            promised = [text.rstrip().removesuffix('}') for word, text in zip(clauses[::2], clauses[1::2]) if word == 'ensures']
            self.functions[found.group(2)] = Function(crate, found.group(2), bool(found.group(1)), cut, ' ; '.join(promised), 'requires' in clauses)


class Repository:
    """Every specs file, the theorems beside proofs (as files `proofs.NAME`), and every file of the code."""

    def __init__(self, root):
        self.root = pathlib.Path(root)
        self.files, self.sources = {}, {}
        self.crates = {path.name for path in self.root.glob('crates/*')}
        for path in sorted(self.root.glob('crates/*/specs/**/*.antt')):
            crate = path.relative_to(self.root).parts[1]
            inner = '.'.join(path.relative_to(self.root / 'crates' / crate / 'specs').with_suffix('').parts)
            self.files[(crate, inner)] = File((crate, inner), path)
        # what stands in no function's folder: theorems that rest on others
        for path in sorted(self.root.glob('crates/*/proofs/**/*.antt')):
            crate = path.relative_to(self.root).parts[1]
            inner = path.relative_to(self.root / 'crates' / crate).with_suffix('').parts
            if all(part[0].isupper() for part in inner[1:]):
                self.files[(crate, '.'.join(inner))] = File((crate, '.'.join(inner)), path)
        for path in sorted(self.root.glob('crates/*/src/*.rt')):
            self.sources[(path.relative_to(self.root).parts[1], path.stem)] = Source(path.relative_to(self.root).parts[1], path)
        self.fields = {m for f in self.files.values() for i in f.order if i.kind.endswith('record') for m in i.members} | BORROW
        for source in self.sources.values():
            for declared in source.types.values():
                self.fields |= set(declared.fields)

    def declared(self, crate, name):
        """A struct or enum of a crate."""
        for (owner, _), source in self.sources.items():
            if owner == crate and name in source.types:
                return source, source.types[name]
        raise Unresolved(f'{crate}: no struct or enum {name}')

    def module(self, module):
        """The crate and file that a module's name stands for; None for a library of the kit."""
        found = re.match(r'Rattle\.([a-z_0-9]+)\.(?:specs\.(.+)|(proofs\.[A-Z].*))$', module)
        return found and found.group(1) in self.crates and (found.group(1), found.group(2) or found.group(3))

    def imported(self, module, name):
        """The items that an import names: of a specs file, of the code, or none, of the kit."""
        where = self.module(module)
        if not where:
            return []
        crate, inner = where
        if inner.startswith('declared.'):
            return [self.declared(crate, inner.split('.')[-2] if inner.endswith('.TheVariants') else name)[1]]  # a case is its enum's
        if where not in self.files:
            raise Unresolved(f'{module}: no such file')
        found = self.in_file(self.files[where], name)
        if not found:
            raise Unresolved(f'{module} has no {name}')
        return found

    def in_file(self, file, name):
        """The items of a file that a name can mean: its own, or the data type whose constructor it is."""
        return file.items.get(name) or [i for i in file.order if i.kind.endswith('data') and name in i.members]
