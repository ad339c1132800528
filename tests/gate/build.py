#!/usr/bin/env python3
"""Builds the program `club`: proves each crate that it stands on, as many side by side as processors and memory allow.

    tests/gate/build.py             build/club, taken from release/ where that is of these sources, and else built
    tests/gate/build.py --take      build/club from what the gate has just proved and built in crates/club/out
    tests/gate/build.py --compare   says whether release/ has that very program; only where its sources are these
    tests/gate/build.py --release   puts build/club into release/, which ends a piece of work
    tests/gate/build.py --stamp     prints the hash of the sources

What was proved is kept on the machine, also where this is stopped, and the gate takes it. The output of the prover is
in build/club.log.
"""
import contextlib
import hashlib
import lzma
import os
import re
import shutil
import sys
import time

sys.path[0] = os.path.dirname(os.path.dirname(os.path.abspath(__file__)))
from lib import kit
from lib.report import result

TOP = os.path.dirname(os.path.dirname(os.path.dirname(os.path.abspath(__file__))))
BUILT = f"{TOP}/build/club"
RELEASE = f"{TOP}/release/club"
MADE = f"{TOP}/crates/club/out/club"


def lines_of_crates():
    """The libraries of each crate, by its name."""
    with open(f"{TOP}/crates.txt", encoding="utf-8") as it:
        lines = [line for line in it if ":" in line and not line.startswith("#")]
    return {line.split(":")[0].split()[0]: line.split(":")[1].split() for line in lines}


def below():
    """The crates that the program stands on, itself last, each after those that it stands on."""
    libraries, found = lines_of_crates(), []

    def visit(crate):
        if crate in libraries and crate not in found:
            for library in libraries[crate]:
                visit(library)
            found.append(crate)

    visit("club")
    return found


def files_of(crate):
    for part in ("src", "specs", "proofs"):
        for at, folders, files in os.walk(f"{TOP}/crates/{crate}/{part}"):
            folders.sort()
            yield from (f"{at}/{name}" for name in sorted(files))


def stamp():
    """The hash of the sources that the program is made of."""
    libraries, made = lines_of_crates(), hashlib.sha256()
    for crate in below():
        made.update(repr((crate, libraries[crate])).encode())
        for file in files_of(crate):
            with open(file, "rb") as it:
                made.update(repr((os.path.relpath(file, TOP), it.read())).encode())
    return made.hexdigest()


def origin_of(program):
    """What the file beside a program says: the hash of its sources and the line of the kit that built it."""
    if not os.path.isfile(f"{program}.sources"):
        return [None, None]
    with open(f"{program}.sources", encoding="utf-8") as it:
        return it.read().split("\n")[:2]


def keep(program, built_by):
    """Puts a program of the present sources where `./club` runs it."""
    put(program, stamp(), built_by)


def put(program, sources, built_by):
    """Puts a program where `./club` runs it, with the hash of its sources and the kit's line in a file beside it."""
    os.makedirs(f"{TOP}/build", exist_ok=True)
    with open(f"{BUILT}.new", "wb") as it:
        it.write(program)
    os.chmod(f"{BUILT}.new", 0o755)
    os.replace(f"{BUILT}.new", BUILT)
    with open(f"{BUILT}.sources", "w", encoding="utf-8") as it:
        it.write(f"{sources}\n{built_by}\n")


def bytes_of(file):
    with open(file, "rb") as it:
        return it.read()


def released():
    """The program in release/, or None where there is none of these sources."""
    if not os.path.isfile(f"{RELEASE}.xz") or origin_of(RELEASE)[0] != stamp():
        return None
    return lzma.decompress(bytes_of(f"{RELEASE}.xz"))


def say(text):
    print(f"club: {text}", file=sys.stderr, flush=True)


class Progress:
    """How many of the crates are proved, and how long the others may take by what these took."""

    def __init__(self, weights):
        self.weights, self.left = weights, dict(weights)
        self.began, self.worked = time.time(), 0

    def see(self, text):
        """Prints the progress once the kit's script has said that a crate is proved, or that it is kept."""
        found = re.match(r"(\w+) (proved|is kept)\b", text)
        if not found or found[1] not in self.left:
            return
        weight = self.left.pop(found[1])
        self.worked += weight * (found[2] == "proved")
        count, whole = len(self.weights) - len(self.left), len(self.weights)
        minutes = (time.time() - self.began) / 60
        left = minutes / self.worked * sum(self.left.values()) if self.worked else None
        more = f", some {left:.0f} min more" if left and self.left else ""
        say(f"{found[1]} is proved: {count} of {whole} after {minutes:.0f} min{more}")


def build():
    """Proves the crates and builds the program, and returns whether that went well."""
    rt = kit.load()
    if rt is None:
        say("the Rattle kit is needed to build the program: there is no `rt` on the path")
        return False
    taken, rt_say = [], rt.say
    progress = Progress({it: 1 + sum(os.path.getsize(file) for file in files_of(it)) for it in below()})

    def say_progress(text, out=None):
        progress.see(text)
        rt_say(text, out)

    compile_by = rt.Crate.compile_by
    # a program that is only run needs neither edits nor tests, and one of the two compilers
    rt.edits_of = lambda crate: ([], [])
    rt.Crate.has_tests = lambda crate: False
    rt.Crate.compile_by = lambda crate, by, words, to: compile_by(crate, by, words, to) if by == "llvm" else 0
    rt.run = lambda crate, tests, by="": taken.append(bytes_of(f"{crate.folder}/out/club")) or True
    rt.say = say_progress
    os.environ.pop("CI", None)
    os.chdir(TOP)
    status = kit.ci(rt, ["club"])
    if taken and not status:
        keep(taken[0], kit.version())
    return bool(taken) and not status


def build_aloud():
    say("there is no program for these sources yet; it is built by proving the crates that it stands on")
    os.makedirs(f"{TOP}/build", exist_ok=True)
    with open(f"{TOP}/build/club.log", "w", encoding="utf-8") as log, contextlib.redirect_stdout(log):
        is_built = build()
    say("the program lies in build/club" if is_built else "the program was not built; build/club.log says why")
    return 0 if is_built else 70


def take_earlier():
    """Takes the program of release/, which is of other sources, where there is no kit to build that of these."""
    put(lzma.decompress(bytes_of(f"{RELEASE}.xz")), *origin_of(RELEASE))
    say("note: release/ has the program of earlier sources, which was taken; the Rattle kit builds that of these")
    return 0


def take_or_build():
    program = released()
    if program is None and os.path.isfile(f"{RELEASE}.xz") and shutil.which("rt") is None:
        return take_earlier()
    if program is None:
        return build_aloud()
    keep(program, origin_of(RELEASE)[1])
    say("the program in release/ is that of these sources; it was taken from there to build/club")
    return 0


def take_any():
    """Takes the program of build/ or of release/, and says so if it is of other sources."""
    sources = stamp()
    if os.path.isfile(BUILT) and origin_of(BUILT)[0] == sources:
        return 0
    if released() is not None:
        return take_or_build()
    if os.path.isfile(BUILT):
        say("note: build/club is of other sources than these; the tests run over it")
        return 0
    if not os.path.isfile(f"{RELEASE}.xz"):
        say("there is no program in build/ or release/; ./club builds one")
        return 1
    put(lzma.decompress(bytes_of(f"{RELEASE}.xz")), *origin_of(RELEASE))
    say("note: the program in release/ is of other sources than these; the tests run over it")
    return 0


def take():
    if os.path.isfile(MADE):
        keep(bytes_of(MADE), kit.version())
    return 0 if os.path.isfile(MADE) else 1


def compare():
    program = released()
    if program is None or origin_of(RELEASE)[1] != kit.version():
        result(True, "release/ is of other sources or another kit, and is not compared")
        return 0
    is_same = os.path.isfile(MADE) and program == bytes_of(MADE)
    return 0 if result(is_same, "release/ has the program that was just built") else 1


def release():
    if origin_of(BUILT)[0] != stamp():
        say("build/club is of other sources: ./club builds it")
        return 1
    os.makedirs(os.path.dirname(RELEASE), exist_ok=True)
    with open(f"{RELEASE}.xz", "wb") as it:
        it.write(lzma.compress(bytes_of(BUILT), preset=9))
    shutil.copyfile(f"{BUILT}.sources", f"{RELEASE}.sources")
    return 0


def print_stamp():
    print(stamp())
    return 0


WORDS = {"--take": take, "--compare": compare, "--release": release, "--stamp": print_stamp}

if __name__ == "__main__":
    sys.exit(WORDS[sys.argv[1]]() if sys.argv[1:] else take_or_build())
