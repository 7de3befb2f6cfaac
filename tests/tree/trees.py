"""Trees for tests of this repository's checks: a small tree, and a copy of this one.

The small tree has three crates: `low`, whose contract cites the definitions `Small`, `◌or_else◌`
and `◌>>=◌`, and which has the definition `Loop` in its machine; `high`, which cites `Small`; and
`engine`, which tests that no crate is exempt because of its name.
"""
import pathlib
import re
import shutil
import subprocess

ROOT = pathlib.Path(__file__).resolve().parents[2]
# The time limit of a tool in seconds.
PATIENCE = 60

NUMBER = "crates/low/src/number.rt"
SMALL = {
    "crates.txt": "low: the lower one\nhigh: the upper one\nengine: one of a name of this tree\n",
    "crates/low/specs/Lib.antt": "pub mod Small\npub mod machine\n",
    "crates/low/specs/machine.antt": "pub mod Loop\n",
    "crates/low/specs/machine/Loop.antt": """-- The loop.

abbrev pub Loop : Type 0
Loop = Unit {0}
""",
    "crates/low/specs/Small.antt": """-- Small numbers (PS3.5 7.1).
use Rattle.std.specs.Prelude.{ℕ, Option, nat_le}

-- at most 9
abbrev pub Small : ℕ → Type 0
Small n = nat_le n 9

-- the first of two that is there
infixr 20 ◌or_else◌
abbrev pub ◌or_else◌ : Option ℕ → Option ℕ → Option ℕ
first or_else second = first

-- what comes after a number that is there
infixl 10 ◌>>=◌
abbrev pub ◌>>=◌ : Option ℕ → (ℕ → Option ℕ) → Option ℕ
first >>= next = first
""",
    "crates/low/proofs/Public.antt": """use Rattle.low.specs.Small.{Small}
use Rattle.low.proofs.Sizes.Numbers as numbers

pub small : Small 3
small = numbers.three_is_small
""",
    "crates/low/proofs/Sizes.antt": "-- Numbers: which are small.\npub mod Numbers\n",
    "crates/low/proofs/Sizes/Numbers.antt": """-- Three is small (`three_is_small`). Stands on Few.
use Rattle.low.proofs.Few.{few_are_few}

pub three_is_small : Small 3
three_is_small = refl
""",
    "crates/low/proofs/Further.antt": "-- What no answer cites.\n",
    "crates/low/proofs/number/few/Answers.antt": "use Rattle.low.proofs.Few.{few_are_few}\n",
    "crates/low/proofs/Few.antt": "-- A few are few.\n",
    "crates/low/proofs/laws/small/Answers.antt": "use Rattle.low.proofs.Public.{small}\n",
    "crates/low/src/lib.rt": """mod number;
pub use crate::number::{Number, Pair, Reader, few};
""",
    NUMBER: """ghost use Rattle.low.specs.Small.{Small, ◌or_else◌, ◌>>=◌};

pub struct Number {
    value: u8,
}

pub struct Pair<R: Read> {
    first: u8,
    reader: R,
}

pub trait Reader {
    fn read(&self) -> u8;
}

/// Returns a few, which is small.
pub fn few(room: [u8; 4]) -> u8
    requires room { (n : ℕ) →
        let m = n in
        Small m }
    ensures either { None or_else Some result ≡ Some result }
    ensures first { (Some 3 >>= λ n. Some n) ≡ Some 3 }
{
    3
}

impl<R: Read> Reader for Pair<R>
where
    R: Clone,
{
    fn read(&self) -> u8 {
        3
    }
}
""",
    "crates/high/specs/Lib.antt": "pub mod Great\n",
    "crates/high/specs/Great.antt": """-- Great numbers (own).
use Rattle.low.specs.Small.{Small}

-- no small one
abbrev pub Great : ℕ → Type 0
Great n = Small n → ⊥
""",
    "crates/high/src/lib.rt": """ghost use Rattle.high.specs.Great.{Great};
pub use crate::{great};

/// Returns a great number.
pub fn great() -> u8
    ensures { Great result }
{
    200
}
""",
    "crates/high/mutants/great.returns_a_few.mutant": "file: src/lib.rt\nold: 200\nnew: 3\n",
    "crates/engine/specs/Lib.antt": "pub mod Turns\npub mod machine\n",
    "crates/engine/specs/machine.antt": "pub mod Turning\n",
    "crates/engine/specs/machine/Turning.antt": """-- The turn.

abbrev pub Turning : Type 0
Turning = Unit {0}
""",
    "crates/engine/specs/Turns.antt": """-- Turns (own).
use Rattle.std.specs.Prelude.{ℕ}

-- one
abbrev pub turns : ℕ
turns = 1
""",
    "crates/engine/src/lib.rt": "",
    "docs/PROVED.md": """# What is proved

## Numbers (`low`)

| Claim | Clause | Lemma file |
|---|---|---|
| A few are few | `either`, `first` of `few`; law `small` | `Few`, `Sizes/Numbers` |

## Tested

| Crate | What | By |
|---|---|---|
| `low` | that few are read | `high`, `tests/test_numbers.py --all` |
""",
    "docs/DEFINITIONS.md": """# Definitions

| Clause | What it says |
|---|---|
| `first` of `low::few` | three comes first |

## Small numbers

#### `Small`
At most 9.

```
Small n = nat_le n 9
```

#### `great`
No small one.
""",
    "README.md": """# Numbers

| Claim | Clause | Mutant |
|---|---|---|
| A great number isn't small | `great` of `high`, and `few` of `low` | `returns_a_few` |

What is [only tested](docs/PROVED.md#tested).
""",
    "tests/test_numbers.py": "few\n",
}

# The parts of this tree that the checks read.
PARTS = ["CHANGELOG.md", "README.md", "crates.txt", "crates", "docs", "man", "packaging", "tools"]
OMITTED = shutil.ignore_patterns("out", "proofs", "data", "mutants", "__pycache__")


def write(tree, texts):
    """Writes files by their names in the tree."""
    for name, text in texts.items():
        path = tree / name
        path.parent.mkdir(parents=True, exist_ok=True)
        path.write_text(text)


def copy(tree, *names):
    """Copies files and folders of this tree."""
    for name in names:
        (tree / name).parent.mkdir(parents=True, exist_ok=True)
        if (ROOT / name).is_dir():
            shutil.copytree(ROOT / name, tree / name, ignore=OMITTED)
        else:
            shutil.copy(ROOT / name, tree / name)


def anchor(heading):
    """Returns the anchor of a heading in links."""
    return re.sub(r"[^\w -]", "", heading.lower()).replace(" ", "-")


def change(tree, changes):
    """Makes changes, each a file and an old text of it, whose first occurrence is replaced by a new text."""
    for name, old, new in changes:
        text = (tree / name).read_text()
        assert old in text, f"{name} of the tree has no {old!r}"
        (tree / name).write_text(text.replace(old, new, 1))


def run(tree, tool, *arguments, **options):
    """Runs a tool of the tree with options of subprocess.run. Returns its status and its output."""
    done = subprocess.run(
        [tree / "tools" / tool, *arguments],
        stdin=subprocess.DEVNULL,
        stdout=subprocess.PIPE,
        stderr=subprocess.STDOUT,
        text=True,
        **{"timeout": PATIENCE, **options},
    )
    return done.returncode, done.stdout
