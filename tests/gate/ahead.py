#!/usr/bin/env python3
"""Checks a crate before those below it are proved: `ahead.py CRATE [FLAG ..]`, with flags of `rattle check`.

Crates below it that are built are taken so. Of the others the sources are read, and the functions of these crates are
checked too unless `--only MODULE::FUNCTION` names what is wanted: the crate's own functions, with those that they call. So
the crates of one change can be proved side by side, each over the contracts of those below it. This is no verdict:
`prove.py` and the gate prove each crate over proved ones. What a check keeps is in build/ahead/CRATE, also if it is stopped.
"""
import os
import subprocess
import sys

sys.path[0] = os.path.dirname(os.path.dirname(os.path.abspath(__file__)))
from lib import kit

TOP = os.path.dirname(os.path.dirname(os.path.dirname(os.path.abspath(__file__))))


def libraries(rtlib, crate):
    """The arguments that name the libraries of a check: each as built or by its sources."""
    built = {below.name for below in crate.below() if below.is_built()}
    read = [below for below in crate.below() if below.name not in built]
    users = [crate, *read]
    words = []
    for name in sorted({"core", *(it for user in users for it in user.of_kit)}):
        words += ["--extern", f"{name}={rtlib.KIT}/rlibs/{name}.rlib"]
    for used in {below.name: below for user in users for below in user.deps if below.name in built}.values():
        words += ["--extern", f"{used.name}={used.rlib}"]
    for folder in (f"{rtlib.KIT}/rlibs", *(os.path.dirname(it.rlib) for it in crate.below() if it.name in built)):
        words += ["-L", f"dependency={folder}"]
    for below in read:
        uses = dict.fromkeys(["core", *below.of_kit, *(it.name for it in below.deps)])
        words += ["--lib", f"{below.name}:{','.join(uses)}={below.folder}/src/lib.rt"]
    return words


def main(name, *flags):
    rt = kit.load()
    if rt is None:
        sys.exit("there is no `rt` on the path")
    found = [it for it in rt.rtlib.crates_below(TOP) if it.name == name]
    if not found:
        sys.exit(f"there is no crate {name}")
    crate, kept = found[0], f"{TOP}/build/ahead/{name}"
    os.makedirs(kept, exist_ok=True)
    words = ["--crate-name", name, "src/main.rt" if crate.is_program else "src/lib.rt", *libraries(rt.rtlib, crate)]
    words += ["--antt-project", f"{rt.KIT}/rattle/logic/antt-project.json", "--logic-built", f"{rt.KIT}/logic_built"]
    words += ["--links", f"{name}=", "--incremental", kept, *flags]
    return subprocess.run([*rt.rtlib.guarded(), rt.rtlib.RATTLE, "check", *words], cwd=crate.folder, check=False).returncode


if __name__ == "__main__":
    if len(sys.argv) < 2:
        sys.exit(__doc__)
    sys.exit(main(*sys.argv[1:]))
