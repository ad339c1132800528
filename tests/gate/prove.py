#!/usr/bin/env python3
"""Proves crates and those below them side by side, over what earlier checks kept: the loop of a day's work.

    tests/gate/prove.py [CRATE ..]     all crates, or these with those below them
    tests/gate/prove.py --rt WORD ..   the kit's `rt` with these words, without its wait in the highest crates

What a check printed is in build/prove/CRATE.log. RT_JOBS is the number of checks at a time. It is no gate: it takes
what is kept in the crates' folders out/, which `./test` does not.
"""
import copy
import os
import sys
import threading
import time

sys.path[0] = os.path.dirname(os.path.dirname(os.path.abspath(__file__)))
from lib import kit

TOP = os.path.dirname(os.path.dirname(os.path.dirname(os.path.abspath(__file__))))
LOGS = f"{TOP}/build/prove"


class Run:
    """One run over some crates, which prints a line for each crate."""

    def __init__(self):
        self.began, self.printing = time.monotonic(), threading.Lock()

    def say(self, text):
        with self.printing:
            print(f"{time.monotonic() - self.began:6.0f} s  {text}", flush=True)

    def prove(self, crate, given, jobs):
        """Builds a library, or checks a program, once those below are proved. Returns whether it is proved."""
        lacking = [below.name for below in crate.below() if not given[below.name]]
        if lacking:
            self.say(f"{crate.name} waits for {lacking[0]}")
            return False
        if crate.makes_rlib() and crate.is_built():
            return True
        began, crate = time.monotonic(), copy.copy(crate)
        os.makedirs(f"{crate.folder}/out", exist_ok=True)
        with open(f"{LOGS}/{crate.name}.log", "w+", encoding="utf-8") as crate.out:
            flags = ["--jobs", str(jobs)]
            status = crate.build_rlib(flags, anew=False) if crate.makes_rlib() else crate.check(flags)
        self.say(f"{crate.name} {'NOT PROVED' if status else 'proved'} in {time.monotonic() - began:.0f} s")
        return not status


def chosen(crates, names):
    """These crates and those below them, the lowest first; all crates if none is named."""
    unknown = set(names) - {crate.name for crate in crates}
    if unknown:
        sys.exit(f"there is no crate {' '.join(sorted(unknown))}")
    wanted = {below.name for crate in crates if not names or crate.name in names for below in (crate, *crate.below())}
    return sorted((crate for crate in crates if crate.name in wanted), key=lambda crate: len(crate.below()))


def main(words):
    os.chdir(TOP if words[:1] != ["--rt"] else os.getcwd())
    rt = kit.load()
    if rt is None:
        sys.exit("there is no `rt` on the path")
    if words[:1] == ["--rt"]:
        return rt.main(words[1:])
    os.makedirs(LOGS, exist_ok=True)
    rt.rtlib.guarded()
    if hasattr(rt, "share_work"):  # begin with what other checkouts of this machine kept, and offer them this one's
        rt.share_work(is_alone=False)
    run, tasks = Run(), {}
    for crate in chosen(rt.rtlib.crates_below(TOP), words):
        waits, lines = [below.name for below in crate.below()], crate.count(rb"\n")
        tasks[crate.name] = waits, lines, rt.need(crate), lambda given, jobs, it=crate: run.prove(it, given, jobs)
    failed = [name for name, is_proved in rt.in_lanes(tasks).items() if not is_proved]
    run.say(f"{len(tasks) - len(failed)} proved, {len(failed)} not")
    return int(bool(failed))


if __name__ == "__main__":
    sys.exit(main(sys.argv[1:]))
