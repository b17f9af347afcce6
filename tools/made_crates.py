"""Two small crates, over which the tests of antt.py, definitions.py and book.py read."""
import pathlib

LOW = '''-- What a list of numbers comes to.
use Rattle.std.specs.Prelude.{ℕ, ◌+◌, List, [], ◌∷◌, Option, Some, None}
use Rattle.low.specs.declared.kinds.Kind.{Kind}
use Rattle.low.specs.declared.kinds.Kind.TheVariants as kind

-- the sum of a list
abbrev pub total : List ℕ → ℕ
total [] = 0
total (x ∷ xs) = x + total xs

-- reached by nothing
abbrev pub aside : ℕ → ℕ
aside n = n

infixl 10 ◌>>=◌
abbrev pub ◌>>=◌ : {A B : Type 0} → Option A → (A → Option B) → Option B
(Some x) >>= f = f x
None >>= f = None

module _ {K : Type 0}
    (seen : K → ℕ) where
  -- what is seen of a list
  abbrev pub seen_total : List K → ℕ
  seen_total [] = 0
  seen_total (k ∷ ks) = seen k + seen_total ks

abbrev mutual
  pub data Tree : Type 0 where
    -- no tree
    Leaf : Tree
    Node : (total : ℕ) → Trees → Tree

  pub data Trees : Type 0 where
    none : Trees
    more : Tree → Trees → Trees

abbrev pub weight : Kind → ℕ
weight kind.Light = 1
weight kind.Heavy = 2
'''

HIGH = '''-- What is owed.
use Rattle.std.specs.Prelude.{◌≡◌, ℕ, List, Option, Some, None, IsTrue, map}
use Rattle.low.specs.Sums.{total, ◌>>=◌, aside as beside, Tree, Leaf, Node}
use Rattle.low.specs.Sums as sums

-- a binder hides the definition of its name
abbrev pub hides : (total : ℕ) → Tree → ℕ
hides total Leaf = total
hides total (Node aside ts) = let weight = aside in weight

abbrev pub first : Option ℕ → Option ℕ
first o = o >>= λ weight. Some weight

-- the numbers of the tree are these
pub record Owes (t : Tree) (xs : List ℕ) : Type 0 where
  pub total : ℕ
  pub right : total ≡ sums.total xs

abbrev pub chosen : Option ℕ → ℕ
chosen o = elim o [
    None ↦ 0
  | Some total ↦ total
]

abbrev pub stepped : Option ℕ → Option ℕ
stepped o = do
  total ← o
  Some total
'''

LEMMAS = '''-- What follows of totals.
use Rattle.std.proofs.Common.{◌≡◌, [], refl}
use Rattle.low.specs.Sums.{total}

-- nothing comes to nothing
pub total-nil : total [] ≡ 0
total-nil = by total
  where
    by : (other : ℕ) → total [] ≡ 0
    by total = refl
'''

CODE = '''//! What owes.
ghost use Rattle.std.specs.Prelude.{◌≡◌, length};
ghost use Rattle.high.specs.Owed.{Owes, hides};
ghost use Rattle.low.specs.Sums.{total, weight};

use low::Kind;

/// A tree of some numbers.
#[derive(Drop)]
pub struct Made {
    pub count: u64,
}

/// Makes what is owed.
///
/// # Errors
/// There is none.
pub fn make<S: Source>(source: &mut S, weight: u64) -> Result<Made, Kind>
    requires { weight < 2 ^ 8 }
    // a comment with a } in it
    ensures owed { Owes source.now (total source.old) }
    ensures kind { result ≡ Err Kind.Heavy }
{
    total(source)
}

fn inner() -> u64
    ensures { hides result }
{
    0
}
'''

KIND = '''//! Kinds.

/// How much something weighs.
pub enum Kind {
    Light,
    Heavy,
}
'''

SOURCE = '''//! Where numbers come from.
ghost use Rattle.low.specs.Sums.{aside};

/// Gives numbers.
pub trait Source {
    // The numbers left.
    ghost left: { Self → ℕ };

    /// The next number.
    fn next(&mut self) -> u64
        ensures { aside (left self.old) ≡ result };
}
'''

KIT = "".join("std %s a word\n" % word for word in "ℕ ◌+◌ ◌≡◌ List [] ◌∷◌ Option Some None Err length map IsTrue".split())

FILES = {
    "crates.txt": "# low: what is low\nlow:\n# high: what is high\nhigh: low\n",
    "tools/kit_words.txt": KIT,
    "crates/low/README.md": "# low\n\nWhat is low, as `total`.\n",
    "crates/low/specs/Lib.antt": "pub mod Sums\n",
    "crates/low/specs/Sums.antt": LOW,
    "crates/low/proofs/SumLemmas.antt": LEMMAS,
    "crates/low/src/lib.rt": "//! Low.\nmod kinds;\n",
    "crates/low/src/kinds.rt": KIND,
    "crates/high/specs/Lib.antt": "pub mod Owed\n",
    "crates/high/specs/Owed.antt": HIGH,
    "crates/high/src/lib.rt": "//! High.\nmod making;\nmod source;\n",
    "crates/high/src/making.rt": CODE,
    "crates/high/src/source.rt": SOURCE,
}


def write(top: pathlib.Path) -> None:
    """Writes the crates below a folder."""
    for path, text in FILES.items():
        (top / path).parent.mkdir(parents=True, exist_ok=True)
        (top / path).write_text(text, encoding="utf-8")
