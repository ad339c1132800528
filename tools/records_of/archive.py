"""The files of an archive: those that are named, and those of a kind in the folders that are named."""
import os
import pathlib

from records_of.record import Refused

ENDINGS = {"pdn": [".pdn"], "csa": [".csa"], "kif": [".kif", ".kifu"]}


def files_below(folder, kind, output):
    """The files of a kind in a folder and those below it, by their paths, without those of the output's folder."""
    found = [it for it in sorted(pathlib.Path(folder).rglob("*"))
             if it.suffix.lower() in ENDINGS[kind] and not it.is_dir()]
    return [it for it in found if pathlib.Path(output).resolve() not in it.resolve().parents]


def files_of(names, kind, output):
    """Each file, with the beginning of the names of its records; in folders it has the names of those on the way."""
    for name in names:
        if name == "-" or not os.path.isdir(name):
            yield name, "record" if name == "-" else pathlib.Path(name).stem
            continue
        paths = files_below(name, kind, output)
        if not paths:
            raise Refused(f"{name} has no file {' or '.join(ENDINGS[kind])}")
        for path in paths:
            yield str(path), "-".join(path.relative_to(name).with_suffix("").parts)
