#!/usr/bin/env python3
"""Tests of tools/believed.py: planted definitions that it must follow, planted names that it must refuse; and of this repository, that no
believed text has a word which could mean a definition outside the list. usage: test_believed.py"""
import pathlib
import tempfile
import unittest

import antt
import names as names_in
import believed

FILES = {
    'crates.txt': 'low:\nhigh: low\nhistory: low high\nworked: low\n',
    'docs/THEOREMS.md': '| d | t | f | w |\n|---|---|---|---|\n| 3 | `told` | history/specs/History | |\n| | the field `fact` of `Kept` | high/specs/High | |\n',
    'docs/DEFINITIONS.md': f'words\n{believed.BEGIN}\n{believed.END}\nmore\n',
    'crates/low/src/lib.rt': 'pub struct Inner(pub u32);\n\npub struct Outer {\n    pub inner: Inner,\n}\n\npub struct Wanted(pub u32);\n\npub enum Way {\n    One,\n    Two(u32),\n}\n',
    'crates/low/specs/Low.antt': '''-- low
use Rattle.std.specs.Prelude.{ℕ, zero, suc, ◌+◌}
use Rattle.low.specs.declared.Outer.{Outer}
use Rattle.low.specs.declared.Way.{Way}

-- one comment
abbrev pub deepest : ℕ → ℕ
deepest n = n

unfoldable pub helped : ℕ → ℕ
helped n = go n
  where
    go : ℕ → ℕ
    go zero = 0
    go (suc m) = deepest m

-- `number` is a variable in the first clause and a definition in the second
abbrev pub number : ℕ
number = 7

abbrev pub either : ℕ → ℕ
either (suc number) = number
either zero = number

pub data Answer : Type 0 where
  good bad : Answer

pub record Pair : Type 0 where
  pub left : ℕ
  pub right : Outer

abbrev pub ◌⊕◌ : ℕ → ℕ → ℕ
◌⊕◌ a b = a + b

abbrev pub by_way : Way → ℕ
by_way Way.One = 0
by_way (Way.Two n) = n

abbrev pub unused : ℕ
unused = 0
''',
    'crates/high/src/lib.rt': '''ghost use Rattle.std.specs.Prelude.{◌≡◌};
ghost use Rattle.high.specs.High.{promised};
use low::Outer;
use low::Wanted;

pub fn thing(x: Outer, y: Wanted) -> u32
    ensures { result ≡ promised }
{
    0
}
''',
    'crates/high/specs/High.antt': '''-- high
use Rattle.std.specs.Prelude.{ℕ, ◌<◌, true, false}
use Rattle.low.specs.Low.{helped, either, Answer, good, Pair}
use Rattle.low.specs.Low as low

abbrev pub promised : ℕ
promised = let x = helped 1 in elim true [ | true ↦ either x | false ↦ low.deepest x ]

pub record Kept (p : Pair) : Type 0 where
  pub fact : p.left < 5
  pub other : low.unused < 5
''',
    'crates/capi/src/lib.rt': '''ghost use Rattle.std.specs.Prelude.{◌≡◌};
ghost use Rattle.high.specs.High.{promised};

#[unsafe(no_mangle)]
pub extern "C" fn pw_thing(x: u32) -> u32
    ensures { result ≡ promised }
{
    high::thing(x)
}
''',
    'crates/history/specs/History.antt': '''-- history
use Rattle.std.specs.Prelude.{ℕ, ◌≡◌, refl}
use Rattle.low.specs.Low.{Answer, good, by_way}

module _ (a : Answer) (e : a ≡ good) where
  abbrev pub kept : Answer
  kept = a

  pub in_order_lem : kept ≡ good
  in_order_lem = e

  pub told : by_way ≡ by_way
  told = refl
''',
    'crates/worked/specs/Worked.antt': '''-- worked
use Rattle.std.specs.Prelude.{◌≡◌, refl}
use Rattle.low.specs.Low.{number}

pub worked : number ≡ 7
worked = refl
''',
}


class Planted(unittest.TestCase):
    def repository(self, **changes):
        """The small repository, with texts replaced: a file's name with `_` for `/` and `.`, and what is put in place of what."""
        self.folder = tempfile.TemporaryDirectory()
        self.addCleanup(self.folder.cleanup)
        for name, text in FILES.items():
            old, new = changes.get(name.replace('/', '_').replace('.', '_'), ('', ''))
            self.assertIn(old, text)
            path = pathlib.Path(self.folder.name) / name
            path.parent.mkdir(parents=True, exist_ok=True)
            path.write_text(text.replace(old, new) if old else text)
        return antt.Repository(self.folder.name)

    def names(self, repository):
        seen, _ = believed.follow(repository, believed.rows_of(repository)[-1][1])
        return {item.name for item in believed.definitions(seen)} | {item.name for item in believed.structs(seen)}

    def refused(self, words, **changes):
        with self.assertRaisesRegex(antt.Unresolved, words):
            believed.made(self.repository(**changes))

    def test_follows_every_kind_of_name(self):
        wanted = {'promised', 'helped', 'deepest', 'either', 'number', 'Answer', 'kept', 'by_way', 'Way', 'Outer', 'Inner', 'Pair', 'Wanted'}
        self.assertEqual(self.names(self.repository()), wanted)

    def test_a_variable_of_one_clause_is_a_name_in_another(self):
        seen, _ = believed.follow(self.repository(), believed.rows_of(self.repository())[1][1])  # without the worked examples
        self.assertIn('number', {item.name for item in seen.values()})

    def test_a_definition_added_to_a_body(self):
        self.assertIn('unused', self.names(self.repository(crates_low_specs_Low_antt=('deepest n = n', 'deepest n = unused'))))

    def test_a_definition_added_to_a_where(self):
        self.assertIn('unused', self.names(self.repository(crates_low_specs_Low_antt=('go zero = 0', 'go zero = unused'))))

    def test_a_definition_added_to_a_field(self):
        self.assertIn('unused', self.names(self.repository(crates_high_specs_High_antt=('p.left < 5', 'p.left < low.unused'))))

    def test_an_operator(self):
        self.assertIn('◌⊕◌', self.names(self.repository(crates_low_specs_Low_antt=('deepest n = n', 'deepest n = n ⊕ n'))))

    def test_a_field_of_what_a_definition_makes(self):
        self.assertIn('unused', self.names(self.repository(crates_high_specs_High_antt=('p.left < 5', '(low.unused).left < 5'))))

    def test_a_second_clause(self):
        self.assertIn('unused', self.names(self.repository(crates_capi_src_lib_rt=(
            '    ensures { result ≡ promised }\n', '    ensures { result ≡ promised }\n    ensures other { result ≡ Rattle.low.specs.Low.unused }\n'))))

    def test_a_field_of_a_name_that_nothing_explains(self):
        self.refused('nothing explains lost', crates_high_specs_High_antt=('p.left < 5', 'lost.left < 5'))

    def test_a_premise_of_a_module(self):
        self.assertIn('unused', self.names(self.repository(
            crates_history_specs_History_antt=('(e : a ≡ good)', '(e : a ≡ good) (z : Rattle.low.specs.Low.unused ≡ 0)'))))

    def test_a_name_that_nothing_explains(self):
        self.refused('nothing explains lost', crates_low_specs_Low_antt=('deepest n = n', 'deepest n = lost n'))

    def test_a_name_of_a_contract_that_nothing_explains(self):
        self.refused('nothing explains lost', crates_capi_src_lib_rt=('result ≡ promised', 'result ≡ lost'))

    def test_an_import_that_is_not_there(self):
        self.refused('has no lost', crates_high_specs_High_antt=('{helped, either', '{helped, lost as either'))

    def test_a_field_that_no_record_has(self):
        self.refused('no record has a field middle', crates_high_specs_High_antt=('p.left < 5', 'p.middle < 5'))

    def test_a_case_that_an_enum_has_not(self):
        self.refused('Way has no Three', crates_low_specs_Low_antt=('by_way Way.One = 0', 'by_way Way.Three = 0'))

    def test_an_exported_function_without_a_promise(self):
        self.refused('has no `ensures`', crates_capi_src_lib_rt=('    ensures { result ≡ promised }\n', ''))

    def test_an_exported_function_without_a_call_by_value(self):
        self.refused('0 functions other by value', crates_capi_src_lib_rt=('pw_thing', 'pw_other'))

    def test_an_exported_function_that_cannot_be_read(self):
        self.refused('2 functions are exported, 1 of them', crates_capi_src_lib_rt=('#[unsafe(no_mangle)]\n', '#[unsafe(no_mangle)]\n\n#[unsafe(no_mangle)]\n'))

    def test_a_theorem_that_is_not_there(self):
        self.refused('lost is in none of', docs_THEOREMS_md=('`told`', '`told`, `lost`'))

    def test_a_theorem_beside_the_proofs(self):
        repository = self.repository(docs_THEOREMS_md=('| 3 | `told` | history/specs/History | |', '| 3 | `more` | low/proofs/More | |'))
        path = repository.root / 'crates/low/proofs/More.antt'
        path.parent.mkdir()
        path.write_text('-- more\nuse Rattle.std.specs.Prelude.{◌≡◌, refl}\nuse Rattle.low.specs.Low.{unused}\n\npub more : unused ≡ 0\nmore = refl\n')
        self.assertIn('unused', self.names(antt.Repository(repository.root)))

    def test_a_field_of_theorems_that_is_not_there(self):
        self.refused('has no field lost', docs_THEOREMS_md=('`fact`', '`lost`'))

    def test_a_value_behind_a_name_that_is_no_definition(self):
        self.refused('neither a definition nor a proof', crates_low_specs_Low_antt=('abbrev pub number', 'pub number'))

    def test_a_type_that_nothing_explains(self):
        self.refused('nothing explains the type Lost', crates_low_src_lib_rt=('inner: Inner', 'inner: Lost'))

    def test_the_page(self):
        repository = self.repository()
        old = (repository.root / believed.PAGE).read_text()
        new = believed.page(repository, old)
        self.assertNotEqual(new, old)
        self.assertEqual(believed.page(repository, new), new)
        self.assertTrue(new.startswith('words\n') and new.endswith('\nmore\n'))


class Here(unittest.TestCase):
    def test_no_word_of_a_believed_text_could_mean_more(self):
        """Without any rule of scope: each word of a believed text that its file could mean is in the list, or a variable of its left side."""
        repository = antt.Repository(believed.ROOT)
        seen, _ = believed.follow(repository, believed.rows_of(repository)[-1][1])
        for item in seen.values():
            if item.kind not in ('struct', 'field'):
                self.words(repository, seen, item)

    def test_a_name_is_explained_in_its_row_or_above(self):
        repository = antt.Repository(believed.ROOT)
        seen, _ = believed.follow(repository, believed.rows_of(repository)[-1][1])
        items = believed.definitions(seen) + believed.structs(seen)
        order = believed.reading_order(repository, items)
        for item in items:
            for other in names_in.names_of(repository, item, True).items:
                if (*other.file, other.name) not in believed.MET:
                    self.assertLessEqual(order.index(other.file), order.index(item.file), (item.key, other.key))

    def words(self, repository, seen, item):
        names = names_in.Names(repository, repository.files[item.file], item.name)
        text = ' '.join(item.code()) if item.kind not in ('pub', 'plain') else names_in.signature(item)
        sides = {word for lines in names_in.clauses(item) for word in names.TOKEN.findall(' '.join(lines).partition(' =')[0])}
        for token in names.TOKEN.findall(text + ' ' + ' '.join(header for _, header in item.around)):
            for word in filter(None, token.split('.')):
                for other in names.lookup(word) or []:
                    self.assertTrue(other.key in seen or (*other.file, other.name) in believed.MET or word in sides, (item.key, word))


if __name__ == '__main__':
    unittest.main()
