#!/usr/bin/env python3
"""Tests tests/gate/edits.py over a small crate that is created here: each edit has the expected result.

One changes nothing, one only renames, one is let through by a weak contract, one is hidden behind an edit of what its
function calls, two change one function, one changes no function but a constant, and one cannot be read.
"""
import contextlib
import os
import sys
import tempfile

sys.path[0] = os.path.dirname(os.path.dirname(os.path.abspath(__file__)))
from gate import edits
from lib import kit
from lib.report import exit_status, result

SOURCE = """//! Sums.
#![tactic(auto)]

ghost use Rattle.std.specs.Prelude.{◌≡◌, ◌+◌, IfSome};

const THREE: u32 = 3;

/// Three.
pub fn three() -> u32
    ensures { result ≡ 3 }
{
    THREE
}

/// Twice the number.
pub fn doubled(number: u8) -> u32
    ensures { result ≡ number + number }
{
    let once = u32::from(number);
    once + once
}

/// Four times the number.
pub fn quadrupled(number: u8) -> u32
    ensures { result ≡ (number + number) + (number + number) }
{
    let half = doubled(number);
    half + half
}

/// Twice the number, or nothing.
pub fn loosely_doubled(number: u8) -> Option<u32>
    ensures { IfSome result (λ sum. sum ≡ number + number) }
{
    Some(doubled(number))
}
"""

# the replacements of each edit, and its expected result
EDITS = {
    "one_more": ([("    once + once", "    once + once + 1")], "refused"),
    "renames": (
        [
            ("    let once = u32::from(number);", "    let one = u32::from(number);"),
            ("    once + once", "    one + one"),
        ],
        "missed",
    ),
    "half_for_whole": ([("    half + half", "    half")], "refused"),
    "gives_up": ([("    Some(doubled(number))", "    None")], "missed"),
    "four_for_three": ([("const THREE: u32 = 3;", "const THREE: u32 = 4;")], "refused"),
    "changes_nothing": ([("    THREE", "    THREE")], "bad"),
    "cannot_be_read": ([("    let half = doubled(number);", "    let half = tripled(number);")], "bad"),
}

# the results that differ under the kit's older script, which does not compare the texts
OF_OLDER = {"changes_nothing": "missed"}


def lay_out(top):
    for part in ("src", "must-fail"):
        os.makedirs(f"{top}/crates/sums/{part}")
    with open(f"{top}/crates.txt", "w", encoding="utf-8") as it:
        it.write("sums:\n")
    with open(f"{top}/crates/sums/src/lib.rt", "w", encoding="utf-8") as it:
        it.write(SOURCE)
    for name, (pairs, _) in EDITS.items():
        with open(f"{top}/crates/sums/must-fail/{name}.edit", "w", encoding="utf-8") as it:
            it.write("file: src/lib.rt\n" + "".join(f"old: {old}\nnew: {new}\n" for old, new in pairs))


def main():
    rt = kit.load()
    with tempfile.TemporaryDirectory(prefix="rt-run-") as top, contextlib.chdir(top):
        lay_out(top)
        crate = rt.rtlib.crates_below(top)[0]
        files, _ = rt.edits_of(crate)
        found = edits.tried(rt, crate, files)
        worst = rt.checked(crate, {}, ["--jobs", "1"], None).returncode
    result(not worst, "the crate of the edits is proved")
    for file, (kind, text) in zip(files, found):
        name = os.path.basename(file).removesuffix(".edit")
        expected = (kit.is_older(rt) and OF_OLDER.get(name)) or EDITS[name][1]
        result(kind == expected, f"the edit {name} is {expected}", f"{kind}: {text}")
    return exit_status()


if __name__ == "__main__":
    sys.exit(main())
