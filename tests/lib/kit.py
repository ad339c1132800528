"""The kit's script `rt` as a module, for the scripts of this folder that prove with it.

What they put in the place of one of its functions they say themselves, and each of them goes the kit's own way where
its script is another than the ones that they know. There are two of these. The newer script keeps on the machine what it
has passed, and takes the names of crates; the older one proves all crates from nothing at each run.
"""
import hashlib
import importlib.machinery
import importlib.util
import os
import shutil
import sys


def load():
    """The kit's script, loaded once, or None where this machine has none."""
    if "rt" in sys.modules:
        return sys.modules["rt"]
    found = shutil.which("rt")
    if not found:
        return None
    sys.dont_write_bytecode = True
    path = os.path.realpath(found)
    loader = importlib.machinery.SourceFileLoader("rt", path)
    module = importlib.util.module_from_spec(importlib.util.spec_from_loader("rt", loader))
    sys.modules["rt"] = module
    loader.exec_module(module)
    if is_older(module):
        module.rtlib.Crate.stamp = lambda crate: stamp(module.rtlib, crate, {})
    return module


def version():
    """The kit's line, or nothing where this machine has no kit."""
    rt = load()
    if rt is None:
        return ""
    with open(f"{rt.KIT}/KIT-ID", encoding="utf-8") as it:
        return it.read().strip()


def is_older(rt):
    """Whether the script keeps nothing on the machine, and its `rt ci` takes no words."""
    return not hasattr(rt, "Kept")


def stamp(rtlib, crate, known):
    """What the older script's `Crate.stamp` returns, with each library summed up once. The script does so once for each
    way to a library, which takes minutes for the highest crates."""
    if crate.folder not in known:
        made = hashlib.sha256(repr((crate.said, crate.has_c)).encode())
        with open(f"{rtlib.KIT}/WHAT", "rb") as it:
            made.update(it.read())
        for file in rtlib.files_of(crate.folder):
            with open(file, "rb") as it:
                made.update(repr((file.replace(crate.folder, ""), it.read())).encode())
        made.update(repr([stamp(rtlib, below, known) for below in crate.deps]).encode())
        known[crate.folder] = made.hexdigest()
    return known[crate.folder]


def ci(rt, words):
    """Runs the kit's `rt ci` with flags and names of crates, and returns its status. The older script takes neither:
    each of its runs is from nothing, and the crates are chosen here."""
    if not is_older(rt):
        return rt.main(["ci", *words])
    names = [it for it in words if not it.startswith("--")]
    if names:
        choose_crates(rt, names)
    return rt.main(["ci"])


def choose_crates(rt, names):
    """Has the older script prove these crates and those below them alone."""
    crates_of, stop_on_unread = rt.crates_of, rt.rtlib.stop_on_unread
    every = []

    def chosen(root, aside):
        every[:] = crates_of(root, aside)
        wanted = {below for crate in every if crate.name in names for below in (crate, *crate.below())}
        return [it for it in every if it in wanted]

    rt.crates_of = chosen
    rt.rtlib.stop_on_unread = lambda top, crates: stop_on_unread(top, every or crates)
