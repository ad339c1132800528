#!/usr/bin/env python3
"""Tests `./install`: files, modes, tools, units, the second run and removal, below a temporary root.

    python3 tests/cli/install.py

The user and the folder in /srv are created for real only in a private namespace of mounts, where root runs the test.
"""
import os
import pathlib
import re
import shutil
import stat
import subprocess
import sys
import tempfile

sys.path[0] = str(pathlib.Path(__file__).resolve().parents[1])
from lib.club import FAST, PROGRAM, TOP, TWO_MEMBERS, WAIT, club
from lib.report import check, exit_status, result, skip
from lib.server import serve

FILES = {
    "bin/club": 0o755,
    "share/man/man1/club.1": 0o644,
    "share/bash-completion/completions/club": 0o644,
    "share/zsh/site-functions/_club": 0o644,
    "share/fish/vendor_completions.d/club.fish": 0o644,
}
TOOLS = "notify", "publish", "records"
LINKS = {f"bin/club-{it}": f"../lib/club/tools/{it}" for it in TOOLS}
MODULES = [it for name in ("common", *(f"{it}_of" for it in TOOLS)) for it in (TOP / "tools" / name).iterdir()
           if it.is_file()]
ALL_FILES = {**FILES, **{f"lib/club/tools/{it}": 0o755 for it in TOOLS},
             **{f"lib/club/{it.relative_to(TOP)}": 0o644 for it in MODULES}}
MANIFEST, BACKUP = "lib/club/installed", "lib/club/backup"
UNITS = "/etc/systemd/system"
UNIT_NAMES = [f"club-{it}.{kind}" for it in ("backup", "notify", "publish", "server", "sweep")
              for kind in ("service", "timer") if (it, kind) != ("server", "timer")]
HARDENING = ("User=club", "NoNewPrivileges=yes", "ProtectSystem=strict", "ProtectHome=yes", "PrivateTmp=yes",
             "ReadWritePaths=/srv/club")
READABLE = "club-publish.service"  # writes files for everybody
SHOWN_UNIT = re.compile(r"^```ini\n# /etc/systemd/system/(\S+)\n(.*?)^```$", re.MULTILINE | re.DOTALL)
OPTIONS = re.compile(r'^Environment="OPTIONS=(.*)"$', re.MULTILINE)
NOBODY = 65534
# In a private namespace whose /etc, /srv and /usr/local are layers over the machine's.
LAYERED = """
set -e
mount -t tmpfs tmpfs "$1"
for folder in /etc /srv /usr/local; do
    name=$(echo $folder | tr / _)
    mkdir -p "$1/$name" "$1/$name.work"
    mount -t overlay overlay -o "lowerdir=$folder,upperdir=$1/$name,workdir=$1/$name.work" $folder
done
rm -rf /srv/club
if id -u club > /dev/null 2>&1; then exit 77; fi
"$2/install" --service --program "$3" > /dev/null
"$2/install" --remove > /dev/null
if id -u club > /dev/null 2>&1 || [ -e /srv/club ]; then echo "something is left"; fi
"$2/install" --service --program "$3" > /dev/null
"$2/install" --service --program "$3" > /dev/null
stat -c '%U %G %a' /srv/club
setpriv --reuid club --regid club --clear-groups /usr/local/bin/club /srv/club/ourclub.db init
"$2/install" --remove > /dev/null
echo "$(id -un club) $(ls /srv/club) $(ls /usr/local/bin/club* /etc/systemd/system/club-* 2> /dev/null | wc -l)"
"""


def install(*words, **how):
    """The status of ./install, and the lines that it prints."""
    words = [str(TOP / "install"), *words]
    ran = subprocess.run(words, capture_output=True, text=True, timeout=WAIT, check=False, **how)
    return ran.returncode, (ran.stdout + ran.stderr).splitlines()


def tree(root):
    """Each path below a folder, with its mode and its content."""
    return {str(it.relative_to(root)): (stat.S_IMODE(it.lstat().st_mode), it.read_bytes() if it.is_file() else None)
            for it in pathlib.Path(root).rglob("*")}


def mode(path):
    return stat.S_IMODE(os.stat(path).st_mode)


def test_files(root):
    check("install without --service succeeds", 0, install("--root", root, "--program", PROGRAM)[0])
    made = {it for it, (_, content) in tree(root).items() if content is not None}
    check("it installs the program, the man page, completions and tools, and nothing else",
          {f"usr/local/{it}" for it in (*ALL_FILES, *LINKS, MANIFEST)}, made)
    check("each file has its mode", ALL_FILES, {it: mode(f"{root}/usr/local/{it}") for it in ALL_FILES})
    check("each command of a tool is a link to it", LINKS, {it: os.readlink(f"{root}/usr/local/{it}") for it in LINKS})
    check("the installed program is the one that was given", pathlib.Path(PROGRAM).read_bytes(),
          pathlib.Path(f"{root}/usr/local/bin/club").read_bytes())
    before = tree(root)
    status, lines = install("--root", root, "--program", PROGRAM)
    check("a second run says that each file is current", (0, len(ALL_FILES) + len(LINKS)),
          (status, sum(it.startswith("is current: ") for it in lines)))
    check("a second run changes nothing", before, tree(root))
    install("--root", root, "--remove")
    check("removal leaves nothing", {}, tree(root))
    check("removal twice says that nothing is installed", (0, ["nothing is installed under /usr/local"]),
          install("--root", root, "--remove"))


def test_tools(root):
    """The tools run where they are installed, with the program that was installed with them."""
    prefix, club_file = f"{root}/prefix", f"{root}/c.db"
    install("--prefix", prefix, "--program", PROGRAM)
    for words in (*TWO_MEMBERS, "event cup draughts 86400 0"):
        club(club_file, *words.split())
    plain = {"PATH": f"{os.path.dirname(sys.executable)}:/usr/bin:/bin"}  # as of cron

    def tool(name, *words):
        words = [f"{prefix}/bin/club-{name}", *words]
        ran = subprocess.run(words, capture_output=True, text=True, timeout=WAIT, check=False, cwd=root, env=plain)
        return ran.returncode, ran.stdout + ran.stderr

    check("club-publish writes pages", (0, True),
          (tool("publish", club_file, "site")[0], os.path.exists(f"{root}/site/event-cup.html")))
    check("club-notify writes a calendar", (0, "BEGIN:VCALENDAR"),
          (lambda status, text: (status, text[:15]))(*tool("notify", "--ics", "anna", club_file)))
    pathlib.Path(root, "game.pdn").write_text("1. 32-28 2-0\n", encoding="utf-8")
    check("club-records converts a record", (0, "1. 32-28 2-0\n"), tool("records", "pdn", "game.pdn"))
    pathlib.Path(f"{prefix}/bin/club-notify").unlink()
    os.symlink("/bin/true", f"{prefix}/bin/club-notify")
    status, lines = install("--prefix", prefix, "--remove")
    result(status == 0 and f"kept, because it was changed after it was installed: {prefix}/bin/club-notify" in lines,
           "removal keeps a link that was changed", lines)
    check("removal leaves nothing else, also of what Python wrote beside the modules", {"bin", "bin/club-notify"},
          set(tree(prefix)))


def test_service(root):
    status, lines = install("--root", root, "--service", "--program", PROGRAM, "--prefix", "/opt/club")
    check("install with --service succeeds", 0, status)
    result("created no user: the user club is needed where this is unpacked" in lines,
           "below a root it creates no user, and says so", lines)
    check("the folder of the file has mode 700", 0o700, mode(f"{root}/srv/club"))
    check("the units are those of the list", sorted(UNIT_NAMES), sorted(os.listdir(root + UNITS)))
    for name in UNIT_NAMES:
        text = pathlib.Path(f"{root}{UNITS}/{name}").read_text(encoding="utf-8")
        if name.endswith(".service"):
            missing = [it for it in HARDENING if it not in text.splitlines()]
            result(not missing and "ExecStart=/opt/club/" in text and "@PREFIX@" not in text,
                   f"{name} is hardened, and runs what was installed", missing, text)
            check(f"{name} has its umask", ["UMask=0022" if name == READABLE else "UMask=0077"],
                  re.findall("^UMask=.*", text, re.MULTILINE))
    verify_units(root)
    data = pathlib.Path(f"{root}/srv/club/ourclub.db")
    data.write_bytes(b"a club")
    changed = pathlib.Path(f"{root}{UNITS}/club-server.service")
    changed.write_text(changed.read_text(encoding="utf-8").replace("8080", "9090"), encoding="utf-8")
    _, lines = install("--root", root, "--service", "--program", PROGRAM, "--prefix", "/opt/club")
    result("9090" in changed.read_text(encoding="utf-8"), "a second run keeps a unit that was changed", lines)
    status, lines = install("--root", root, "--remove", "--prefix", "/opt/club")
    left = {it for it, (_, content) in tree(root).items() if content is not None}
    check("removal leaves the club's data and the changed unit",
          (0, {"srv/club/ourclub.db", f"{UNITS[1:]}/club-server.service"}), (status, left))
    check("removal does not change the data", (b"a club", 0o700), (data.read_bytes(), mode(data.parent)))


def verify_units(root):
    """Lets systemd read the units; what they name exists below the root alone."""
    paths = [pathlib.Path(f"{root}{UNITS}/{it}") for it in UNIT_NAMES]
    verify("systemd accepts the units", paths, {"/opt/club": f"{root}/opt/club"})


def verify(name, paths, places):
    """Lets systemd read units, in which places are put for those that do not exist here."""
    if not shutil.which("systemd-analyze"):
        skip(name, "there is no systemd-analyze")
        return
    with tempfile.TemporaryDirectory() as folder:
        for path in paths:
            text = path.read_text(encoding="utf-8")
            for place, real in places.items():
                text = text.replace(place, real)
            pathlib.Path(folder, path.name).write_text(text, encoding="utf-8")
        words = ["systemd-analyze", "verify", "--man=no", *(f"{folder}/{it.name}" for it in paths)]
        ran = subprocess.run(words, capture_output=True, text=True, timeout=WAIT, check=False)
        about_ours = [it for it in (ran.stdout + ran.stderr).splitlines() if "club-" in it]
        check(name, (0, []), (ran.returncode, about_ours))


def test_units_of_tools(_):
    """The words that the units give to the tools."""
    for name in ("notify", "publish"):
        text = (TOP / f"tools/service/club-{name}.service").read_text(encoding="utf-8")
        command = re.search(rf"^ExecStart=@PREFIX@/bin/club-{name} (.*)$", text, re.MULTILINE)
        result(command and "$OPTIONS" in command[1], f"club-{name}.service runs its tool with the options", text)
        words = [str(TOP / "tools" / name), "--help"]
        known = subprocess.run(words, capture_output=True, text=True, timeout=WAIT, check=False).stdout
        unknown = [it for it in re.findall(r"--[a-z]+", command[1] + OPTIONS.search(text)[1]) if f"{it} " not in known]
        check(f"club-{name}.service gives the tool options that it has", [], unknown)


def test_clock(folder):
    """The sweep's condition, in its unit and in the line of cron, over what timedatectl prints."""
    unit = (TOP / "tools/service/club-sweep.service").read_text(encoding="utf-8")
    condition = re.search(r"^ExecCondition=/bin/sh -c '(.*)'$", unit, re.MULTILINE)[1]
    cron = re.search(r"^\S+ \* \* \* \* club (.*) && \S+/club \S+ sweep --most \d+$",
                     (TOP / "docs/operating.md").read_text(encoding="utf-8"), re.MULTILINE)
    check("the line of cron has the condition of the unit", condition, cron and cron[1])
    stub = pathlib.Path(folder, "timedatectl")
    words = '[ "$*" = "show --property=NTPSynchronized" ]'
    for printed, expected in ("NTPSynchronized=yes", 0), ("NTPSynchronized=no", 1), ("", 1):
        stub.write_text(f"#!/bin/sh\n{words} && echo {printed}\n", encoding="utf-8")
        stub.chmod(0o755)
        ran = subprocess.run(["sh", "-c", condition], env={"PATH": f"{folder}:/usr/bin:/bin"}, timeout=WAIT)
        check(f"where timedatectl prints {printed or 'nothing'}, the sweep is {'skipped' if expected else 'run'}",
              expected, ran.returncode)


def test_shown_units(_):
    """The units that docs/operating.md shows are those that are installed."""
    shown = SHOWN_UNIT.findall((TOP / "docs/operating.md").read_text(encoding="utf-8"))
    result(shown, "docs/operating.md shows a unit")
    for name, text in shown:
        installed = (TOP / "tools/service" / name).read_text(encoding="utf-8").replace("@PREFIX@", "/usr/local")
        check(f"docs/operating.md shows {name} as it is installed", installed, text)


def test_refusals(root):
    target = pathlib.Path(f"{root}/usr/local/bin/club")
    target.parent.mkdir(parents=True)
    target.write_bytes(b"another program")
    before = tree(root)
    status, lines = install("--root", root, "--program", PROGRAM)
    check("a file of others is not replaced, and nothing is changed", (1, before), (status, tree(root)))
    result(any("was not installed by this script" in it for it in lines), "the message names the reason", lines)
    for words in (["--prefix"], ["--unknown"], ["--prefix", "/a b"]):
        check(f"the words {words} are refused with the usage", 2, install(*words)[0])
    check("units for a program in a home folder are refused", 1,
          install("--root", root, "--service", "--prefix", "/home/anna/.local", "--program", PROGRAM)[0])
    check("refusals change nothing", before, tree(root))
    manifest = pathlib.Path(f"{root}/usr/local/{MANIFEST}")
    manifest.parent.mkdir(parents=True)
    manifest.write_text("0 /etc/passwd\n", encoding="utf-8")
    before = tree(root)
    check("removal refuses a list of files that names a file elsewhere", (1, before),
          (install("--root", root, "--remove")[0], tree(root)))


def test_rights(root):
    """Installs and removes without the right to write."""
    if os.geteuid() != 0:
        skip("without rights nothing is changed", "only root can become another user")
        return
    os.chmod(root, 0o755)
    readable = f"{root}/source"
    os.makedirs(f"{readable}/docs")
    shutil.copytree(TOP / "tools", f"{readable}/tools")
    shutil.copy(TOP / "docs/club.1", f"{readable}/docs")
    shutil.copy(TOP / "install", readable)
    shutil.copy(PROGRAM, f"{readable}/program")
    words = "--root", f"{root}/to", "--program", f"{readable}/program"
    other = {"user": NOBODY, "group": NOBODY, "extra_groups": [], "cwd": "/"}

    def install_as_other(*more):
        ran = subprocess.run([f"{readable}/install", *words, *more], capture_output=True, text=True, timeout=WAIT,
                             check=False, **other)
        return ran.returncode, ran.stderr.splitlines()

    status, lines = install_as_other()
    check("without rights the installation fails and creates nothing", (1, False),
          (status, os.path.exists(f"{root}/to")))
    check("the message says where one may not write",
          [f"install: you may not write in {root}; nothing was changed",
           "install: run it as root, or choose another prefix: ./install --prefix ~/.local"], lines)
    install(*words)
    before = tree(f"{root}/to")
    check("without rights the removal fails and changes nothing", (1, before),
          (install_as_other("--remove")[0], tree(f"{root}/to")))


def test_user(root):
    """The user and the folder, in a private namespace."""
    name = "root creates the user club, who owns the folder, and removal keeps both only while there is data"
    probe = ["unshare", "-m", "sh", "-c", f"mount -t tmpfs tmpfs {root}"]
    if os.geteuid() != 0 or subprocess.run(probe, capture_output=True, check=False).returncode:
        skip(name, "only root can mount in a private namespace")
        return
    ran = subprocess.run(["unshare", "-m", "bash", "-c", LAYERED, "-", root, str(TOP), PROGRAM], capture_output=True,
                         text=True, timeout=WAIT, check=False)
    if ran.returncode == 77 or "mount:" in ran.stderr:
        skip(name, "this machine has a user club" if ran.returncode == 77 else "there are no layered mounts")
        return
    lines = [re.sub(r" ourclub.db-\S+", "", it) for it in ran.stdout.replace("\nourclub.db-wal", "").splitlines()]
    check(name, (0, ["club club 700", "ready", "club ourclub.db 0"]), (ran.returncode, lines))


def backup(folder):
    words = [str(TOP / "tools/service/backup"), PROGRAM, f"{folder}/c.db", f"{folder}/backups"]
    return subprocess.run(words, capture_output=True, text=True, timeout=WAIT, check=False)


def test_backup(folder):
    for words in TWO_MEMBERS:
        club(f"{folder}/c.db", *words.split())
    kept = pathlib.Path(folder, "backups")
    kept.mkdir()
    for day in range(1, 21):
        (kept / f"backup-2020-01-{day:02}.db").write_bytes(b"")
    (kept / "notes").write_bytes(b"")
    check("a backup succeeds", 0, backup(folder).returncode)
    names = sorted(os.listdir(kept))
    check("the newest 14 backups are kept, and other files",
          [f"backup-2020-01-{day:02}.db" for day in range(8, 21)], names[:13])
    result(len(names) == 15 and names[14] == "notes", "nothing is left beside the backups", names)
    check("the backup is for its owner alone", 0o600, mode(kept / names[13]))
    check("the backup is sound", (0, "sound"), club(str(kept / names[13]), "verify"))
    before = tree(kept)
    check("a second backup of a day changes nothing", (0, before), (backup(folder).returncode, tree(kept)))
    (kept / names[13]).unlink()
    with serve("c.db", folder=folder) as server:
        status = backup(folder).returncode
        check("a backup succeeds beside a running server, which goes on", (0, 200),
              (status, server.request("GET", "/play")[0]))
    (kept / names[13]).unlink()
    pathlib.Path(folder, "c.db").write_bytes(b"no club")
    pathlib.Path(folder, "c.db-wal").unlink(missing_ok=True)
    before = tree(kept)
    check("a backup that fails deletes none", (True, before.keys()),
          (backup(folder).returncode != 0, tree(kept).keys()))


TESTS = (test_files, test_tools, test_service, test_refusals, test_rights, test_user, test_backup, test_units_of_tools,
         test_clock, test_shown_units)

if __name__ == "__main__":
    for test in TESTS:
        with tempfile.TemporaryDirectory(dir=FAST) as root:
            test(root)
    sys.exit(exit_status())
