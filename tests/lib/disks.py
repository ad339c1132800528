"""What a disk may hold after a power failure: a program's calls on its files, and each image that they may leave.

`recorded` runs a program under strace: its calls on the files of one folder, with the bytes that were written, and its
answers. `images` gives what the folder may hold if the power fails at any of them: all that was synced, and some part
of what was not: none, all, each call alone, each beginning, all but one, some that are drawn, and each write torn: cut
at sectors, by halves, with noise or zeros in its place, the length of the file before it, after it or between.
"""
import dataclasses
import itertools
import os
import pathlib
import re
import shutil
import signal
import subprocess
import tempfile

SECTOR = 512
WAIT = 120  # seconds at most for the end of a program under strace
DRAWN = 6  # subsets, and values of one byte, that are drawn by chance
LINE = re.compile(r"\d+ +(\w+)\((.*)\) += (-?\d+|\?|0x[0-9a-f]+)(?: .*)?")
TEXT = re.compile(r'"((?:\\x[0-9a-f]{2})*)"(\.\.\.)?')
ANSWERS = b"accepted", b"repeated", b"ready", b"upgraded", b"sound", b"HTTP/1."
KNOWN = "openat close write pwrite64 ftruncate fsync fdatasync fcntl sendto mmap link unlink".split()
# Calls that may change files as well. The program makes none of them; one that is made is an error.
OTHERS = """open creat writev pwritev pwritev2 truncate fallocate sync_file_range sync syncfs msync unlinkat
rename renameat renameat2 linkat symlink symlinkat dup dup2 dup3 sendmsg sendfile copy_file_range splice
io_uring_setup""".split()


class Unknown(Exception):
    """A call of which is not known what it does to the files."""


@dataclasses.dataclass(frozen=True)
class Call:
    """What a call does: `write` bytes at an offset, `cut` to a length, `sync`, `make` or `remove` a name, or `answer`."""

    kind: str
    name: str = ""  # of a file; the folder's is empty
    at: int = 0  # an offset, or a length
    held: bytes = b""


@dataclasses.dataclass(frozen=True)
class Image:
    """What each file holds: what was synced of it and calls since; how many answers were given; how it came about."""

    parts: tuple  # of names, each with the bytes that were synced and the calls
    acknowledged: int
    how: str
    moment: str = ""  # of the power failure

    def files(self):
        return {name: after(kept, calls) for name, kept, calls in self.parts}

    def write(self, folder):
        for name, held in self.files().items():
            pathlib.Path(folder, name).write_bytes(held)


def traces():
    """strace and its words, or None where it is not here or may not trace."""
    words = ["strace", "-f", "-qq", "-xx", "-s", str(1 << 24), "-e", "signal=none", "-e"]
    words.append("trace=" + ",".join(f"?{it}" for it in KNOWN + OTHERS))
    if not shutil.which("strace"):
        return None
    tried = subprocess.run([*words, "-o", os.devnull, "true"], capture_output=True, check=False)
    return words if tried.returncode == 0 else None


class Recorder:
    """Reads the lines of strace, of which each has one call."""

    def __init__(self, folder, names):
        self.folder, self.names = os.path.realpath(folder), set(names)
        self.opened = {}
        self.calls = []

    def take(self, line):
        found = LINE.fullmatch(line)
        if not found:
            raise Unknown(line[:200])
        what, arguments, answered = found.groups()
        if answered == "?" or int(answered, 0) < 0:
            return
        if what not in KNOWN:
            raise Unknown(line[:200])
        getattr(self, f"take_{what}")(arguments, int(answered, 0))

    def name_of(self, arguments, place=0):
        """The name of the file that stands there among the arguments, or None where it is none of the folder's."""
        number = arguments.split(", ")[place]
        return self.opened.get(int(number)) if number.isdecimal() else None

    def note(self, kind, arguments, at=0, held=b""):
        name = self.name_of(arguments)
        if name is not None:
            self.calls.append(Call(kind, name, at, held))
        return name

    def take_openat(self, arguments, opened):
        path = os.path.join(self.folder, os.fsdecode(text_in(arguments)))
        inside = path != self.folder and os.path.dirname(path) == self.folder
        name = os.path.basename(path) if inside else "" if path == self.folder else None
        self.opened[opened] = name
        if inside and ("O_TRUNC" in arguments or "O_APPEND" in arguments):
            raise Unknown(f"openat({path}, {arguments.split(', ')[2]})")
        if inside and name not in self.names:
            self.names.add(name)
            self.calls.append(Call("make", name))

    def take_close(self, arguments, _):
        self.opened.pop(int(arguments), None)

    def take_fcntl(self, arguments, answered):
        if "F_DUPFD" in arguments:
            self.opened[answered] = self.name_of(arguments)

    def take_write(self, arguments, _):
        if self.name_of(arguments) is not None:
            raise Unknown("write to a file, at an unknown offset")
        self.take_sendto(arguments, _)

    def take_sendto(self, arguments, _):
        if text_in(arguments).startswith(ANSWERS):
            self.calls.append(Call("answer", held=text_in(arguments)))

    def take_pwrite64(self, arguments, count):
        self.note("write", arguments, int(arguments.rsplit(", ", 1)[1]), text_in(arguments)[:count])

    def take_ftruncate(self, arguments, _):
        self.note("cut", arguments, int(arguments.rsplit(", ", 1)[1]))

    def take_fsync(self, arguments, _):
        self.note("sync", arguments)

    take_fdatasync = take_fsync

    def take_link(self, arguments, _):
        """The control socket of a server gets its name."""
        if not text_in(arguments).endswith(b"-sk/s"):
            raise Unknown(f"link({arguments[:200]})")

    def take_unlink(self, arguments, _):
        """A log is removed, or the control socket of a server, or the name that it had first. A socket holds no data."""
        path = os.path.join(self.folder, os.fsdecode(text_in(arguments)))
        name = os.path.basename(path)
        if os.path.dirname(path) == self.folder and name.endswith("-wal") and name in self.names:
            self.names.remove(name)
            self.calls.append(Call("remove", name))
        elif not path.endswith(("-desk", "-sk/s")):
            raise Unknown(f"unlink({arguments[:200]})")

    def take_mmap(self, arguments, _):
        if "PROT_WRITE" in arguments and "MAP_SHARED" in arguments and self.name_of(arguments, 4) is not None:
            raise Unknown("mmap of a file, to write in it")


def text_in(arguments):
    """The first text among a call's arguments."""
    found = TEXT.search(arguments)
    if not found or found[2]:
        raise Unknown(arguments[:200])
    return bytes.fromhex(found[1].replace("\\x", ""))


def recorded(trace, words, folder, held=b"", ask=None):
    """The calls of a program that runs in the folder, and what it printed.

    `ask` is done once it has printed a line; `held` is what its standard input holds.
    """
    recorder = Recorder(folder, os.listdir(folder))
    with tempfile.NamedTemporaryFile("r") as log:
        pipes = {"stdin": subprocess.PIPE, "stdout": subprocess.PIPE, "stderr": subprocess.PIPE}
        traced = [*trace, "-o", log.name, *words]
        with subprocess.Popen(traced, cwd=folder, start_new_session=True, **pipes) as ran:
            try:
                if ask:
                    ran.stdout.readline()
                    ask()
                printed = ran.communicate(held, WAIT)
            finally:
                if ran.poll() is None:
                    os.killpg(ran.pid, signal.SIGKILL)  # with the program that it traces
        for line in log:
            recorder.take(line.rstrip("\n"))
    return recorder.calls, (printed[0] or printed[1]).decode().strip()


def written(content, at, held):
    """The content once these bytes are written at an offset."""
    return content[:at].ljust(at, b"\0") + held + content[at + len(held) :]


def after(content, calls):
    """The content after these calls in turn."""
    for call in calls:
        if call.kind == "write":
            content = written(content, call.at, call.held)
        else:
            content = content[: call.at].ljust(call.at, b"\0")
    return content


def length_after(length, calls):
    """The length that a file of that length has after these calls."""
    for call in calls:
        length = max(length, call.at + len(call.held)) if call.kind == "write" else call.at
    return length


def replayed(files, calls):
    """What the files hold after all the calls."""
    held = dict(files)
    for call in calls:
        if call.kind == "make":
            held.setdefault(call.name, b"")
        elif call.kind == "remove":
            del held[call.name]
        elif call.kind in ("write", "cut"):
            held[call.name] = after(held[call.name], [call])
    return held


def pieces_of(call):
    """The sectors of a write, each by its offsets; of a write within one sector its two halves."""
    end = call.at + len(call.held)
    cuts = [call.at, *range(call.at - call.at % SECTOR + SECTOR, end, SECTOR), end]
    if len(cuts) == 2 and len(call.held) > 1:
        cuts.insert(1, (call.at + end) // 2)
    return list(itertools.pairwise(cuts))


def torn_write(length, call, draw):
    """Each way in which a write to a file of that length may have been cut off, as the calls that it amounts to."""
    start, end = call.at, call.at + len(call.held)
    pieces = pieces_of(call)
    half, drawn = len(pieces) // 2, draw.randrange(1, len(pieces) + 1)
    parts = {
        "its first half": pieces[:half],
        "its last half": pieces[half:],
        "each second piece of it": pieces[::2],
        "some pieces of it": sorted(draw.sample(pieces, drawn)),
        "one piece of it": [draw.choice(pieces)],
        "all but one piece of it": sorted(draw.sample(pieces, len(pieces) - 1)),
    }
    for how, chosen in parts.items():
        yield how, [Call("write", at=a, held=call.held[a - start : b - start]) for a, b in chosen]
    third = (end - start) // 3
    ranges = {"all": (start, end), "its middle": (start + third, end - third), "its beginning": (start, start + 16)}
    ranges |= {"its first piece": pieces[0], "its last piece": pieces[-1]}
    for how, (a, b) in ranges.items():
        yield f"noise for {how}", [call, Call("write", at=a, held=draw.randbytes(min(b, end) - a))]
    yield "zeros for all", [Call("write", at=start, held=bytes(end - start))]
    if end > length:
        yield "the length before it", [call, Call("cut", at=length)]
        yield "the length after it and no byte", [Call("cut", at=end)]
        yield "noise past the old end", [call, Call("write", at=length, held=draw.randbytes(end - length))]
        yield "a length between", [call, Call("cut", at=(length + end) // 2)]
    if end - start == 1:
        for value in (0, 255, *draw.sample(range(256), DRAWN)):
            yield f"the byte {value}", [Call("write", at=start, held=bytes([value]))]


def torn_cut(length, call, draw):
    """Each way in which a change of a length may have been cut off, as the calls that it amounts to."""
    yield "a length between", [Call("cut", at=(length + call.at) // 2)]
    if call.at > length:
        yield "noise past the old end", [Call("write", at=length, held=draw.randbytes(call.at - length))]


def subsets(count, draw):
    """Which of so many calls reached the disk: all choices of a few, else some of each kind."""
    if count <= 4:
        for size in range(1, count):
            yield from itertools.combinations(range(count), size)
        return
    everything = range(count)
    for at in everything:
        yield everything[:at]
        yield everything[at:]
        yield (at,)
        yield [it for it in everything if it != at]
    for _ in range(DRAWN):
        yield sorted(draw.sample(everything, draw.randrange(1, count)))


def outcomes(length, loose, draw):
    """What may be left of the calls since a file of that length was synced, as calls; none and all stand first."""
    yield "nothing", []
    if not loose:
        return
    yield f"all {len(loose)} calls", loose
    for chosen in subsets(len(loose), draw):
        numbers = ",".join(str(it + 1) for it in chosen)
        yield f"calls {numbers} of {len(loose)}", [loose[it] for it in chosen]
    for at, call in enumerate(loose):
        tear = torn_write if call.kind == "write" else torn_cut
        before, behind = loose[:at], loose[at + 1 :]
        for where, first, then in ("alone", [], []), ("after those before", before, []), ("beside all", before, behind):
            for how, torn in tear(length_after(length, first), call, draw):
                yield f"call {at + 1} of {len(loose)} {where}, {how}", [*first, *torn, *then]


def joined(choices):
    """One of each list's choices together; where several lists have some, the first two of all lists but one."""
    for at in range(len(choices)):
        yield from itertools.product(*(it if it is choices[at] else it[:2] for it in choices))


class Disk:
    """What is synced of each file, what was done to it since, and the names made or removed since the folder was synced.

    A name that is removed and made again before that may name any of its files, the latest or one that was removed.
    """

    def __init__(self, files):
        self.kept, self.loose, self.fresh, self.gone = dict(files), {name: [] for name in files}, [], []
        self.removed = []  # a name, with what was synced of a removed file and what was done to it since

    def take(self, call):
        if call.kind == "make":
            if call.name in self.gone:
                self.gone.remove(call.name)
                self.removed.append((call.name, self.kept.pop(call.name), self.loose.pop(call.name)))
            self.kept.setdefault(call.name, b"")
            self.loose.setdefault(call.name, [])
            self.fresh.append(call.name)
        elif call.kind == "remove":
            self.gone.append(call.name)
        elif call.kind == "sync" and call.name:
            self.kept[call.name] = after(self.kept[call.name], self.loose[call.name])
            self.loose[call.name] = []
        elif call.kind == "sync":
            for name in self.gone:
                del self.kept[name], self.loose[name]
            self.fresh, self.gone, self.removed = [], [], []
        elif call.kind in ("write", "cut"):
            self.loose[call.name].append(call)

    def is_loose(self, name):
        """Whether a sync of that file, or of the folder, has something to do."""
        return bool(self.loose[name] if name else self.fresh + self.gone)

    def images(self, acknowledged, draw):
        """What the folder may hold now."""
        choices = []
        for name in sorted(self.kept):
            files = [("", self.kept[name], self.loose[name])]
            files += [("a removed file, ", *file) for other, *file in self.removed if other == name]
            of_files = [(which + how, (name, kept, tuple(calls))) for which, kept, loose in files
                        for how, calls in outcomes(len(kept), loose, draw)]
            choices.append([("no name", None), *of_files] if name in self.fresh + self.gone else of_files)
        for chosen in joined(choices) if choices else [()]:
            parts_changed = [f"of {name} {how}" for name, (how, _) in zip(sorted(self.kept), chosen) if how != "nothing"]
            parts = tuple(part for _, part in chosen if part)
            yield Image(parts, acknowledged, "; ".join(parts_changed) or "what was synced")


def moments(files, calls, draw):
    """All that the folder may hold, as the calls are made one after another; at each sync, each answer and the end."""
    disk, acknowledged = Disk(files), 0
    for number, call in enumerate(calls):
        if call.kind == "sync" and disk.is_loose(call.name):
            yield f"before call {number + 1} of {len(calls)}", disk.images(acknowledged, draw)
        disk.take(call)
        if call.kind == "answer":
            acknowledged += 1
            yield f"at answer {acknowledged}", disk.images(acknowledged, draw)
    yield "at the end", disk.images(acknowledged, draw)


def images(files, calls, draw):
    """Each image once, with the most commands that had been acknowledged where the folder held these bytes."""
    found = {}
    for moment, held in moments(files, calls, draw):
        for image in held:
            key = tuple((name, len(content), hash(content)) for name, content in image.files().items())
            if key not in found or found[key].acknowledged < image.acknowledged:
                found[key] = dataclasses.replace(image, moment=moment)
    return list(found.values())
