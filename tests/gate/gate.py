#!/usr/bin/env python3
"""Runs the kit's `rt ci`, with edits tried in rounds, and then prints the processor seconds of each crate.

The verdict on every crate, on its tests and on what programs print is the kit's own. In place of a check for each edit
of must-fail/ there is one task a crate, tests/gate/edits.py, in the same lanes. Where a kit's script is another than
the one that this was written for, edits are tried as the kit does it, and a line says so; --plain asks for that.
--anew proves and tries all again, whatever earlier runs kept.

The lanes take the longest chain of tasks first, as many at a time as fit into the memory. The kit reckons both from
the lines of a crate. Here they are what a run before has measured: the table in docs/proving/costs.md.

For the seconds it reads /proc every half second for the prover's processes in this folder, and for those that try
edits: which crate they check, whether its proofs, its tests or its edits, and their processor time. The crate that
costs most is printed first.
"""
import hashlib
import inspect
import os
import re
import sys
import threading
import time

sys.path[0] = os.path.dirname(os.path.dirname(os.path.abspath(__file__)))
from gate import costs, edits
from lib import kit

TICKS = os.sysconf("SC_CLK_TCK")
TOP = os.getcwd()
# where the kit's older script tries edits: the folder does not name the process
FOLDERS_OF_OLDER = ["/rt-edit-"] if kit.load() is not None and kit.is_older(kit.load()) else []
spent = {}  # (pid, start) -> (crate, kind, seconds, peak in bytes)


def processes():
    for name in os.listdir("/proc"):
        if not name.isdigit():
            continue
        try:
            with open(f"/proc/{name}/cmdline", "rb") as it:
                words = it.read().decode(errors="replace").split("\0")
            if not words or os.path.basename(words[0]) != "rattle" or "--crate-name" not in words:
                continue
            with open(f"/proc/{name}/stat") as it:
                fields = it.read().rpartition(")")[2].split()
            with open(f"/proc/{name}/status") as it:
                peak = re.search(r"VmHWM:\s+(\d+)", it.read())
            folder = os.readlink(f"/proc/{name}/cwd")
            with open(f"/proc/{fields[1]}/cmdline", "rb") as it:
                above = it.read().split(b"\0")[0].decode(errors="replace")
        except OSError:
            continue
        # A check's own helpers count for it once they have ended.
        if os.path.basename(above) != "rattle":
            yield name, words, fields, peak, folder


def look():
    for name, words, fields, peak, folder in processes():
        crate = words[words.index("--crate-name") + 1]
        if any(it in folder for it in (f"/rt-edit-{os.getpid()}-", *FOLDERS_OF_OLDER)):
            kind = "edits"
        elif not folder.startswith(f"{TOP}/"):
            continue
        elif any(it.startswith("--test") for it in words):
            kind = "tests"
        else:
            kind = "proof"
        seconds = sum(int(it) for it in fields[11:15]) / TICKS
        bytes_held = 1024 * int(peak[1]) if peak else 0
        before = spent.get((name, fields[19]), (None, None, 0, 0))
        spent[name, fields[19]] = crate, kind, max(seconds, before[2]), max(bytes_held, before[3])


def watch(done):
    while not done.wait(0.5):
        look()


def table(minutes):
    rows = {}
    for crate, kind, seconds, peak in spent.values():
        row = rows.setdefault(crate, {"proof": 0.0, "tests": 0.0, "edits": 0.0, "peak": 0})
        row[kind] += seconds
        row["peak"] = max(row["peak"], peak)
    whole = lambda row: row["proof"] + row["tests"] + row["edits"]
    print(f"{'crate':<20}{'proof':>8}{'tests':>8}{'edits':>8}{'in all':>8}{'GB':>6}   processor seconds")
    for crate, row in sorted(rows.items(), key=lambda it: -whole(it[1])):
        parts = "".join(f"{it:>8.0f}" for it in (row["proof"], row["tests"], row["edits"], whole(row)))
        print(f"{crate:<20}{parts}{row['peak'] / 1e9:>6.1f}")
    total = sum(whole(row) for row in rows.values())
    print(f"{total / 60:.0f} processor minutes by the prover, {minutes:.0f} minutes by the clock", flush=True)


WANTED = ["tasks", "crate", "edits", "first", "waits", "is_well", "kept", "start", "in_ci"]
NEEDED = "checked must_fail read_edit unread need edits_of REFUSED AT_LIMIT SETTLED Kept main".split()
NEEDED_OF_OLDER = "checked must_fail must_fail_all read_edit unread crates_of main".split()


def is_known(rt):
    """Whether the kit's script is one of the two that this one takes."""
    if kit.is_older(rt):
        has = all(hasattr(rt, it) for it in NEEDED_OF_OLDER)
        return has and list(inspect.signature(rt.must_fail_all).parameters) == ["crate", "edits", "flags"]
    has = all(hasattr(rt, it) for it in NEEDED) and hasattr(rt, "add_edits")
    return has and list(inspect.signature(rt.add_edits).parameters) == WANTED


SLOW = 60  # seconds of a check for edits, which the output of the gate names


def tell_slow(crate, line):
    """Prints the line of a check for edits, which begins with its seconds, if it was slow."""
    if int(line.split()[0]) >= SLOW:
        print(f"rt: {crate.name}: {line.strip()}", flush=True)


def tried_in_rounds(crate, files, flags):
    """What takes the place of the older script's `must_fail_all`: whether each edit is refused, and what to print."""
    del flags
    tried = edits.tried(kit.load(), crate, files, say=lambda line: tell_slow(crate, line))
    return [(kind == edits.REFUSED, text) for kind, text in tried]


def add_rounds(rt):
    """What takes the place of the kit's `add_edits`: it adds one task for all edits of a crate, and returns, as that
    does, what gives their results, in the edits' order, and what gives those of earlier runs."""
    with open(edits.__file__, "rb") as it:
        way = it.read()

    def add(tasks, crate, files, first, waits, is_well, kept, start=None, in_ci=True):
        del first, start, in_ci
        begun = {}

        def name_of(file):
            with open(file, "rb") as it:
                parts = ("rounds", way, kept.key(crate), os.path.basename(file), it.read())
            return hashlib.sha256(repr(parts).encode()).hexdigest()

        def known():
            if "known" not in begun:
                begun["names"] = {it: name_of(it) for it in files}
                earlier = {it: kept.tried(begun["names"][it]) for it in files}
                begun["known"] = {it: found for it, found in earlier.items() if found}
            return begun["known"]

        def call(given, jobs):
            del jobs
            new = [it for it in files if it not in known()]
            if not is_well(given, len(new)):
                return None
            found = dict(zip(new, edits.tried(rt, crate, new, say=lambda line: tell_slow(crate, line)))) if new else {}
            for file, (kind, text) in found.items():
                if kind in rt.SETTLED and kept.is_untouched(crate) and name_of(file) == begun["names"][file]:
                    kept.keep_tried(begun["names"][file], kind, text)
            return {**known(), **found}

        key = (crate.name, "edits", 0)
        if files:
            tasks[key] = (waits, crate.count(rb"\n"), rt.need(crate), call)
        return lambda given: [given[key][it] for it in files] if files else [], known if files else dict

    return add


SECONDS_A_LINE = 0.4  # in a crate that no run has measured: too much, so that it is not left to the end


def planned(tasks, rows):
    """The tasks with the seconds and the bytes that a run before has measured in place of those of the kit."""
    found = {}
    for key, (waits, lines, needs, call) in tasks.items():
        crate, kind = key[:2]
        row = rows.get(crate)
        if row is None:
            found[key] = waits, lines * SECONDS_A_LINE, needs, call
            continue
        seconds = row[("proof", "tests", "edits").index(kind)]
        # on another machine the peaks were the same; changed sources take up to a quarter more
        found[key] = waits, seconds, min(needs, 1.25e9 * row[4] + 0.3e9), call
    return found


def plan_by_costs(rt):
    """Has the kit's lanes go by measured costs."""
    in_lanes, rows = rt.in_lanes, costs.measured()
    rt.in_lanes = lambda tasks: in_lanes(planned(tasks, rows))


def prove(words):
    """Runs `rt ci`, and returns its status."""
    rt = kit.load()
    if list(inspect.signature(rt.in_lanes).parameters) == ["tasks"]:
        plan_by_costs(rt)
    if "--plain" not in words and not is_known(rt):
        print("note: tests/gate/gate.py does not know this kit's script, so edits are tried one at a time")
    elif "--plain" not in words and kit.is_older(rt):
        rt.must_fail_all = tried_in_rounds
    elif "--plain" not in words:
        rt.add_edits = add_rounds(rt)
    return kit.ci(rt, [it for it in words if it != "--plain"])


def main():
    done = threading.Event()
    began = time.time()
    watcher = threading.Thread(target=watch, args=(done,))
    watcher.start()
    try:
        status = prove(sys.argv[1:])
    finally:
        done.set()
        watcher.join()
        table((time.time() - began) / 60)
    return status if status >= 0 else 1


if __name__ == "__main__":
    sys.exit(main())
