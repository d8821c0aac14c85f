#!/usr/bin/env python3
"""Writes the table of a colour field's 1,024 quotients: python3 table.py, or, to see that all is as it would write it, python3 table.py --check

Entry k is k over 255, rounded once to the nearest binary32, a tie to the even one, by whole numbers. It stands in three files, all of them written here:

    ../quotients/specs/Steps.antt    the list of 1,024 words, which the quotients' rule is proved of
    src/pairs.rt                     the match, whose arm i has the entries 2 i and 2 i + 1 in one word of 64 bits
    proofs/pairs/pair/Answers.antt   that the match's arms are the list's pairs
"""
import sys
from pathlib import Path

HERE = Path(__file__).resolve().parent
ENTRIES = 1024
ARMS = ENTRIES // 2


def nearest(num, den):
    """The binary32 word of num / den, which is 0 or a normal number."""
    if num == 0:
        return 0
    exponent = 0
    while num >= 2 * den:
        den, exponent = 2 * den, exponent + 1
    while num < den:
        num, exponent = 2 * num, exponent - 1
    digits, rest = divmod(num << 23, den)
    if 2 * rest > den or 2 * rest == den and digits % 2 == 1:
        digits += 1
    # digits of 2^24 carry into the exponent
    return ((exponent + 126) << 23) + digits


WORDS = [nearest(k, 255) for k in range(ENTRIES)]
PAIRS = [WORDS[2 * i] + (WORDS[2 * i + 1] << 32) for i in range(ARMS)]

STEPS = """-- The quotients of a colour field, each field over 255, as binary32 words: the list that the code's table is held to. Written by colour_table/table.py.
-- Nobody has to trust it: RuleLaws holds the whole list to the divisions. Definitions only.
use Rattle.std.specs.Prelude.{ℕ, List, [], ◌∷◌}

unfoldable pub quotient_words : List ℕ
quotient_words =
    %s
    ∷ []
"""

MATCH = """// The constant table, written by table.py.
ghost use Rattle.std.specs.Prelude.{◌≡◌, ◌<◌, get_or};
ghost use Rattle.colour_table.specs.Steps.{quotient_pairs};

// The words of the fields 2 i, in the low half, and 2 i + 1. A match with one place that calls it becomes read-only data in that place; a constant array would be
// stored to the stack at each use.
pub(crate) fn pair(i: u32) -> u64
    requires { i < %d }
    ensures { result ≡ get_or quotient_pairs i 0 }
{
    match i {
%s
    }
}
"""

ANSWERS = """-- `pairs::pair` meets its contract: the arm for i has the list's pair i, which the checker reads off the list, and the last arm is reached by the last i alone.
-- Written by table.py. Assumes nothing.
use Rattle.std.proofs.Common.{rules}
use Rattle.quotients.specs.Steps.{quotient_words}
use Rattle.colour_table.specs.Steps.{pairs_of, quotient_pairs}
use Rattle.colour_table.proofs.pairs.Arms.{arm, last}
use Rattle.colour_table.proofs.pairs.pair.Goals as goal

%s
"""


def answer(i):
    if i < ARMS - 1:
        name, fact = f"returns-in-{i}", f"c.in-{i}.is"
    else:
        name, fact = "returns-in_default", f"(last {i} c.args.i (search rules) c.requires)"
    return f"pub {name} : goal.{name}\nunfolding quotient_pairs pairs_of quotient_words\n{name} c = arm {i} c.args.i {fact}"


def arm(i):
    return f"        {i if i < ARMS - 1 else '_'} => 0x{PAIRS[i]:016x},"


FILES = {
    HERE.parent / "quotients/specs/Steps.antt": STEPS % "\n    ∷ ".join(f"0x{word:08x}" for word in WORDS),
    HERE / "src/pairs.rt": MATCH % (ARMS, "\n".join(arm(i) for i in range(ARMS))),
    HERE / "proofs/pairs/pair/Answers.antt": ANSWERS % "\n\n".join(answer(i) for i in range(ARMS)),
}

if sys.argv[1:] == ["--check"]:
    others = [path for path, text in FILES.items() if path.read_text() != text]
    for path in others:
        print(f"{path.relative_to(HERE.parent)} is not as colour_table/table.py writes it")
    sys.exit(1 if others else 0)
if sys.argv[1:]:
    sys.exit(__doc__)
for path, text in FILES.items():
    path.write_text(text)
