#!/usr/bin/env python3
"""Tests tests/gate/trusted.py over a small tree: what its document lists, and which changes it notices.

    python3 tests/gate/trusted_self_test.py
"""
import pathlib
import re
import sys
import tempfile

sys.path[0] = str(pathlib.Path(__file__).resolve().parents[1])
from gate.definitions import Tree
from gate.trusted import Promise, Root, document, faults
from lib.report import check, exit_status, result

RULES = "game/specs/Rules.antt"
FILES = {
    RULES: """\
-- Counting games.
use Rattle.std.specs.Prelude.{ℕ, ◌≡◌, ◌+◌, List, [], ◌∷◌}
use Rattle.game.specs.declared.board.Board.{Board}
use Rattle.game.specs.Kinds.{Kind, quick, slow as steady}
use Rattle.game.specs.Sums as sums
use Rattle.game.specs.Sums.{Size}

-- What a move adds to the count. It is never 0.
abbrev pub added : Kind → ℕ
added quick = 2
added steady = 1

module _ (size : Size) where
  abbrev pub fits : ℕ → Type 0
  fits step = step ≡ size

abbrev pub largest : ℕ
largest = 9

pub largest_is : largest ≡ 9
largest_is = refl

-- A number with a proof.
abbrev pub bound : (n : ℕ) × (n ≡ 9)
bound = (largest, largest_is)

-- The move is legal: its sum is that of the board.
pub record IsLegal (board : Board) (step : ℕ) : Type 0 where
  pub kind : Kind
  -- `step` is the move here, and no definition
  pub sum : sums.total (step ∷ []) ≡ board.count + added kind
  pub within : (n : ℕ) → n ≡ step → fits bound.0 n

-- Nobody cites it.
abbrev pub step : ℕ → ℕ
step n = n + unused

abbrev unused : ℕ
unused = 7
""",
    "game/specs/Kinds.antt": """\
-- Kinds of moves.
-- A fast move or a slow one.
pub data Kind : Type 0 where
  quick : Kind
  slow : Kind
""",
    "game/specs/Sums.antt": """\
use Rattle.std.specs.Prelude.{ℕ, List, [], ◌∷◌, ◌+◌}

abbrev pub Size : Type 0
Size = ℕ

-- The sum of the numbers | of a list
abbrev pub total : List ℕ → ℕ
total [] = 0
total (n ∷ ns) = n + total ns
""",
    "game/specs/Lib.antt": "pub mod Rules\npub mod Kinds\npub mod Sums\n",
    "game/src/board.rt": """\
//! Boards.

use crate::piece::Piece;

/// A board with its count.
pub struct Board {
    pub count: u32,
    pub piece: Piece,
}
""",
    "game/src/piece.rt": "/// A piece.\npub enum Piece {\n    Man,\n}\n",
    "game/src/lib.rt": """\
//! Moves.

ghost use Rattle.game.specs.Rules.{IsLegal, step};

use crate::board::Board;

/// Makes a move.
pub fn play(board: &Board, by: u32) -> u32
    ensures legal { IsLegal board.now result }
    ensures other { step result ≡ 3 }
{
    by
}
""",
}
# The same with a definition by description: the last move is what `IsLast` determines, whatever computes it.
LEMMA = "ends/proofs/EndLemmas.antt"
DESCRIPTION = "ends", "ends/specs/TheOnly.antt", "TheOnly"
DESCRIBED = {
    **FILES,
    "game/specs/Last.antt": """\
-- Last moves.
use Rattle.std.specs.Prelude.{ℕ}
use Rattle.ends.proofs.Proved.{last-move}

-- The last move.
abbrev pub last : ℕ → ℕ
last n = (last-move n).value
""",
    RULES: FILES[RULES].replace("use ", "use Rattle.game.specs.Last.{last}\nuse ", 1).replace(
        "within : (n : ℕ) →", "within : (n : ℕ) → last n ≡ n →"),
    "ends/specs/TheOnly.antt": """\
use Rattle.std.specs.Prelude.{◌≡◌}

-- Exactly one value has the property.
pub record TheOnly {A : Type 0} (Is : A → Type 0) : Type 0 where
  pub value : A
  pub is : Is value
""",
    "ends/specs/Ends.antt": """\
use Rattle.std.specs.Prelude.{ℕ, ◌≡◌}

-- The last of so many moves.
abbrev pub IsLast : ℕ → ℕ → Type 0
IsLast n m = m ≡ n

-- The other last.
abbrev pub IsOther : ℕ → ℕ → Type 0
IsOther n m = n ≡ m
""",
    "ends/specs/Computed.antt": """\
use Rattle.std.specs.Prelude.{ℕ}

-- The computed last move.
abbrev pub computed : ℕ → ℕ
computed n = n
""",
    "ends/proofs/Proved.antt": "pub use Rattle.ends.proofs.EndLemmas.{last-move, helper}\n",
    LEMMA: """\
use Rattle.std.proofs.Common.{refl, ℕ}
use Rattle.ends.specs.Computed.{computed}
use Rattle.ends.specs.Ends.{IsLast, IsOther}
use Rattle.ends.specs.TheOnly.{TheOnly}

pub helper : (n : ℕ) → IsLast n n
helper n = refl

-- there is one last move
abbrev pub last-move : (n : ℕ)
    → TheOnly (IsLast n)
last-move n = record { value = computed n; is = helper n }
""",
}
PROMISES = (Promise("Legal moves", "Each move is legal.", (Root("game/src/lib.rt", "play", "legal"),)),)
LEMMAS = {(RULES, "largest_is")}
LISTED = {"added", "fits", "IsLegal", "largest", "bound", "Kind", "Size", "total", "Board", "Piece"}


def text_of(files, promises=PROMISES):
    """The document of a tree of these files, and what could not be read."""
    with tempfile.TemporaryDirectory() as folder:
        top = pathlib.Path(folder)
        for name, text in files.items():
            path = top / "crates" / name
            path.parent.mkdir(parents=True, exist_ok=True)
            path.write_text(text, encoding="utf-8")
        tree = Tree(top, LEMMAS, DESCRIPTION)
        return document(tree, promises), list(faults(tree))


def changed(old, new, file=RULES, files=None):
    """The files with one change."""
    files = files or FILES
    assert old in files[file], old
    return {**files, file: files[file].replace(old, new, 1)}


def rows_of(text):
    """The name, lines and comment of each row."""
    return re.findall(r"^\| `([^`]+)` \| `(?:specs|src|proofs)/[^`]+` \| (\d+) \| (.*) \|$", text, re.M)


def check_descriptions():
    text, wrong = text_of(DESCRIBED)
    rows = {name: (int(lines), comment) for name, lines, comment in rows_of(text)}
    check("a definition by description names the property, and not what computes its value",
          LISTED | {"last", "last-move", "IsLast", "TheOnly"}, set(rows))
    check("each name is found, with a description", [], wrong)
    check("the row of a description is its statement", (2, "there is one last move"), rows["last-move"])
    check("the document does not change with another value that is proved", text,
          text_of(changed("value = computed n", "value = n", LEMMA, DESCRIBED))[0])
    result(text_of(changed("TheOnly (IsLast n)", "TheOnly (IsOther n)", LEMMA, DESCRIBED))[0] != text,
           "the document changes with another property in a description")
    for what, files in (
        ("a lemma that is no description", {name: it.replace("last-move", "helper") if "Last" in name else it
                                            for name, it in DESCRIBED.items()}),
        ("a function of proofs/", changed("    → TheOnly (IsLast n)", "    → ℕ", LEMMA, DESCRIBED)),
        ("a description of another record", changed("ends.specs.TheOnly.{", "ends.specs.Ends.{", LEMMA, DESCRIBED)),
    ):
        name = "helper" if "lemma" in what else "last-move"
        check(f"{what} is reported", [f"crates/game/specs/Last.antt: {name} is not found"], text_of(files)[1])


def main():
    text, wrong = text_of(FILES)
    rows = rows_of(text)
    check("the document lists what a clause names, through imports, aliases, constructors, fields and parameters",
          LISTED, {name for name, _, _ in rows})
    check("each name is found", [], wrong)
    said = {name: (int(lines), comment) for name, lines, comment in rows}
    check("a row has the lines and the first sentence of the comment", (3, "What a move adds to the count"),
          said["added"])
    check("lines of comments are not counted", 4, said["IsLegal"][0])
    check("a definition without a comment is marked", "no comment", said["largest"][1])
    result("**game**: 8 definitions, 22 lines, 2 types of Rust" in text, "the head of a module counts as lines alone")

    for what, files in (
        ("a line more in a definition", changed("largest = 9", "largest =\n    9")),
        ("another comment", changed("The move is legal", "The move is good")),
        ("another name in a definition", changed("largest = 9", "largest = unused")),
        ("another name in a signature", changed("pub largest : ℕ", "pub largest : sums.Size → ℕ")),
        ("a renamed definition", {name: it.replace("total", "sum_of") for name, it in FILES.items()}),
        ("a field more in a type of Rust", changed("Man,", "Man,\n    King,", "game/src/piece.rt")),
        ("a name more in a clause", changed("IsLegal board.now result", "IsLegal board.now (step result)",
                                           "game/src/lib.rt")),
    ):
        result(text_of(files)[0] != text, f"the document changes with {what}")
    for what, files in (
        ("a definition that no promise names", changed("unused = 7", "unused =\n    8")),
        ("the proof of a lemma", changed("largest_is = refl", "largest_is =\n    refl")),
        ("a clause that is not the promise's", changed("step result ≡ 3", "step result ≡ 4", "game/src/lib.rt")),
    ):
        check(f"the document does not change with {what}", text, text_of(files)[0])

    result("`not_known`" in text_of({name: it.replace("largest_is", "not_known") for name, it in FILES.items()})[0],
           "an abstract definition that is not known as a lemma is listed")
    files = changed("largest = 9", "largest = lost")
    files[RULES] = files[RULES].replace("use ", "use Rattle.game.proofs.Lost.{lost}\nuse ", 1)
    check("a name of proofs/ is reported", ["crates/game/specs/Rules.antt: lost is not found"], text_of(files)[1])
    check("a name that is not found is reported", ["crates/game/specs/Rules.antt: lost is not found"],
          text_of(changed("largest = 9", "largest = lost"))[1])
    check("a line that cannot be read is reported", "crates/game/specs/Rules.antt:20: an odd line",
          text_of(changed("largest = 9", "largest = 9\n\nan odd line"))[1][0])
    check_descriptions()
    try:
        text_of(changed("ensures legal", "ensures is_legal", "game/src/lib.rt"))
        result(False, "a clause that is gone is reported")
    except LookupError as missing:
        check("a clause that is gone is reported", "game/src/lib.rt: fn play has no clause legal", str(missing))
    return exit_status()


if __name__ == "__main__":
    sys.exit(main())
