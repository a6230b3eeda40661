"""What reach.py says of changes of small trees: a crate `low`, `middle` over it, `high` over that, and `apart`."""
import subprocess
import sys
import tempfile
import unittest
from pathlib import Path
sys.dont_write_bytecode = True
sys.path.insert(0, str(Path(__file__).resolve().parent))
import reach

FILES = {
    'crates.txt': '# all\nlow: thiserror\nmiddle: low\nhigh: middle\napart: low\n',
    'crates/low/src/lib.rt': """//! A library.
ghost use Rattle.std.specs.Prelude.{ℕ, ◌≡◌};
ghost use Rattle.low.specs.Sums.{twice};

mod inner;

/// A pair.
pub struct Pair {
    pub left: u32,
    right: u32,
}

impl Model for Pair {
    ghost Value = { ℕ };

    ghost view = { λ p. p.left };
}

/// Twice a number.
pub fn doubled(n: u32) -> u32
    requires { n ≤ 9 }
    ensures { result ≡ twice n }
{
    helped(n)
}

fn helped(n: u32) -> u32
    ensures { result ≡ twice n }
{
    n + n
}
""",
    'crates/low/src/inner.rt': 'pub const MOST: u32 = 9;\n\npub trait Feed {\n    fn feed(&mut self) -> u32\n'
                               '        ensures { result ≤ 9 };\n}\n',
    'crates/low/specs/Sums.antt': """-- Sums.
use Rattle.std.specs.Prelude.{ℕ, ◌+◌, ◌*◌}

-- twice a number
abbrev pub twice : ℕ → ℕ
twice n = n + n
""",
    'crates/low/proofs/Facts.antt': """-- Facts.
use Rattle.std.specs.Prelude.{ℕ, ◌≡◌, ◌+◌, refl}
use Rattle.low.specs.Sums.{twice}

-- twice is a sum
pub twice-is : (n : ℕ) → twice n ≡ n + n
twice-is n = refl
""",
    'crates/middle/src/lib.rt': '//! Another.\npub fn quadrupled(n: u32) -> u32\n    ensures { result ≡ n }\n{\n    n\n}\n',
    'crates/middle/proofs/quadrupled/Answers.antt': '-- Answers.\nuse Rattle.low.proofs.Facts.{twice-is}\n',
    'crates/high/src/main.rt': 'fn main(rt: HostRuntime) {}\n',
    'crates/apart/src/lib.rt': '//! One more.\n',
}
LOW = 'crates/low/src/lib.rt'


class Reach(unittest.TestCase):
    def setUp(self):
        self.folder = tempfile.TemporaryDirectory()
        self.top = self.folder.name
        for name, text in FILES.items():
            path = Path(self.top, name)
            path.parent.mkdir(parents=True, exist_ok=True)
            path.write_text(text)
        for words in (['init', '-q', '-b', 'main'], ['add', '-A'],
                      ['-c', 'user.name=a', '-c', 'user.email=a@b', 'commit', '-qm', 'All']):
            subprocess.run(['git', '-C', self.top, *words], check=True)

    def tearDown(self):
        self.folder.cleanup()

    def change(self, name, old, new):
        """Changes a file, and gives the crates that changed, each with those that it reaches."""
        path = Path(self.top, name)
        text = path.read_text()
        self.assertIn(old, text)
        path.write_text(text.replace(old, new))
        return {crate: reached for crate, _, reached in reach.reached_by(self.top, 'main')}

    def test_nothing_changed(self):
        self.assertEqual(dict((at[0], at[2]) for at in reach.reached_by(self.top, 'main')), {})

    def test_a_body(self):
        self.assertEqual(self.change(LOW, 'n + n', '2 * n'), {'low': []})

    def test_a_private_function_and_its_contract(self):
        self.assertEqual(self.change(LOW, 'fn helped(n: u32) -> u32\n    ensures { result ≡ twice n }',
                                     'fn helped(n: u32) -> u32'), {'low': []})

    def test_a_comment_and_the_layout(self):
        self.assertEqual(self.change(LOW, '/// Twice a number.\npub fn doubled(n: u32)',
                                     '/// The double.\npub fn doubled(\n    n: u32\n)'), {'low': []})

    def test_what_is_new(self):
        self.assertEqual(self.change(LOW, 'fn helped', 'pub fn more() -> u32 {\n    1\n}\n\nfn helped'), {'low': []})

    def test_what_a_call_ensures(self):
        self.assertEqual(self.change(LOW, 'requires { n ≤ 9 }', 'requires { n ≤ 8 }'),
                         {'low': ['middle', 'high', 'apart']})

    def test_a_call_that_went(self):
        self.assertEqual(self.change(LOW, 'pub fn doubled', 'fn doubled'), {'low': ['middle', 'high', 'apart']})

    def test_what_a_word_of_a_clause_means(self):
        self.assertEqual(self.change(LOW, 'Rattle.low.specs.Sums.{twice}', 'Rattle.low.specs.Others.{twice}'),
                         {'low': ['middle', 'high', 'apart']})

    def test_an_import_that_no_clause_uses(self):
        self.assertEqual(self.change(LOW, 'ghost use Rattle.low', 'ghost use Rattle.low.specs.Others.{thrice};\nghost use '
                                     'Rattle.low'), {'low': []})

    def test_a_field(self):
        self.assertEqual(self.change(LOW, 'right: u32', 'right: u64'), {'low': ['middle', 'high', 'apart']})

    def test_what_contracts_see_of_a_type(self):
        self.assertEqual(self.change(LOW, 'λ p. p.left', 'λ p. p.right'), {'low': ['middle', 'high', 'apart']})

    def test_a_constant_and_a_trait_of_another_module(self):
        inner = 'crates/low/src/inner.rt'
        self.assertEqual(self.change(inner, '= 9', '= 8'), {'low': ['middle', 'high', 'apart']})
        self.tearDown()
        self.setUp()
        self.assertEqual(self.change(inner, 'result ≤ 9', 'result ≤ 8'), {'low': ['middle', 'high', 'apart']})

    def test_a_definition(self):
        self.assertEqual(self.change('crates/low/specs/Sums.antt', 'twice n = n + n', 'twice n = 2 * n'),
                         {'low': ['middle', 'high', 'apart']})

    def test_a_proof(self):
        self.assertEqual(self.change('crates/low/proofs/Facts.antt', 'twice-is n = refl', 'twice-is n = by-hand n'),
                         {'low': []})

    def test_a_statement_reaches_who_cites_it(self):
        self.assertEqual(self.change('crates/low/proofs/Facts.antt', 'twice n ≡ n + n', 'n + n ≡ twice n'),
                         {'low': ['middle']})

    def test_a_new_crate(self):
        Path(self.top, 'crates/new/src').mkdir(parents=True)
        Path(self.top, 'crates/new/src/lib.rt').write_text('pub fn one() -> u32 {\n    1\n}\n')
        self.assertEqual({at[0]: at[2] for at in reach.reached_by(self.top, 'main')}, {'new': []})

    def test_the_topmost_crate(self):
        self.assertEqual(self.change('crates/high/src/main.rt', '{}', '{ }'), {'high': []})


if __name__ == '__main__':
    unittest.main()
