#!/usr/bin/env python3
"""Makes the man page and the completions of `club` from the help texts of the program.

    python3 tests/gate/manual.py            checks that the files in the repository are those of build/club
    python3 tests/gate/manual.py --write    writes them

The files are docs/club.1 and, in tools/completions, club.bash, _club (zsh) and club.fish. The environment variable CLUB
names another program than build/club.
"""
import dataclasses
import pathlib
import re
import subprocess
import sys

sys.path[0] = str(pathlib.Path(__file__).resolve().parents[1])
from lib.club import PROGRAM, TOP, WAIT
from lib.report import exit_status, result

HEADING = re.compile(r"(\w+):$")
ENTRY = re.compile(r"  +(\S.*?)(?:  +(\S.*))?$")
VALUES = re.compile(r" \[possible values: (.*)\]$")
FILES = "The file of ", "The club's file"  # how the description of an argument begins that is the path of a file
PAGE, COMPLETIONS = "docs/club.1", "tools/completions"


@dataclasses.dataclass(frozen=True)
class Entry:
    """An argument, an option or a command, with its description."""

    term: str
    text: str

    @property
    def is_file(self):
        return self.text.startswith(FILES)

    @property
    def values(self):
        found = VALUES.search(self.text)
        return found[1].split(", ") if found else []

    @property
    def names(self):
        """The names of an option: `-h`, `--help`."""
        return [it.split()[0] for it in self.term.split(", ")]

    @property
    def value(self):
        """The name of the value of an option or of an argument, or nothing."""
        found = re.search(r"<([^>]*)>", self.term)
        return found[1] if found else ""

    @property
    def is_repeated(self):
        return self.term.endswith("...")


@dataclasses.dataclass(frozen=True)
class Help:
    """A help text: what a command does, its usage, and its sections."""

    about: list
    usage: str
    sections: dict

    def entries(self, name):
        return self.sections.get(name, [])


def read_help(*words):
    """The help text that the program prints for these words."""
    ran = subprocess.run([PROGRAM, *words, "--help"], capture_output=True, text=True, timeout=WAIT, check=False)
    about, usage, sections, entries = [], "", {}, None
    for line in (ran.stdout or ran.stderr).splitlines():
        if line.startswith("Usage: "):
            usage = line.removeprefix("Usage: ")
        elif found := HEADING.match(line):
            entries = sections.setdefault(found[1], [])
        elif entries is not None and (found := ENTRY.match(line)):
            entries.append(Entry(found[1], found[2] or ""))
        elif line and entries is None:
            about.append(line)
    return Help(about, usage, sections)


def read_all():
    """The version, the help of the program, and that of each command by its name."""
    version = subprocess.run([PROGRAM, "--version"], capture_output=True, text=True, timeout=WAIT, check=True).stdout
    top = read_help()
    names = [it.term for it in top.entries("Commands") if it.term != "help"]
    return version.strip(), top, {it: read_help(it) for it in names}


# The man page.


def roff(text):
    text = text.replace("\\", "\\e").replace("-", "\\-").replace("'", "\\(aq")
    return f"\\&{text}" if text.startswith(".") else text


def paragraphs(entries):
    for it in entries:
        yield from (".TP", f".B {roff(it.term)}", roff(it.text))


def man_page(version, top, commands):
    about, status = top.about[0], [it for it in top.about if it.startswith("Status: ")]
    lines = ['.\\" Made by tests/gate/manual.py --write from the help texts of the program.',
             f'.TH CLUB 1 "" "{roff(version)}" "User Commands"',
             ".SH NAME", f"club \\- {roff(about[0].lower() + about[1:].rstrip('.'))}",
             ".SH SYNOPSIS", f".B {roff(top.usage)}",
             ".SH DESCRIPTION", roff(about),
             *(roff(it) for it in top.about[1:] if it not in status),
             ".SH ARGUMENTS", *paragraphs(top.entries("Arguments")),
             ".SH OPTIONS", *paragraphs(top.entries("Options")),
             ".SH COMMANDS"]
    for name, of in commands.items():
        lines += [f".SS {roff(name)}", f".B {roff(of.usage)}", ".PP", *(roff(it) for it in of.about)]
        options = [it for it in of.entries("Options") if "--help" not in it.names]
        lines += paragraphs(of.entries("Arguments") + options)
    if status:
        lines.append(".SH EXIT STATUS")
        for part in re.split(r", (?=\d)", status[0].removeprefix("Status: ")):
            number, _, meaning = part.partition(" ")
            lines += [".TP", f".B {number}", roff(meaning)]
    return "\n".join(lines) + "\n"


# Completions. In each the words before FILE are options; the one after it is a command.


def option_names(entries, has_value=None):
    return [name for it in entries if has_value in (None, bool(it.value)) for name in it.names]


def kind(argument):
    """What completes an argument: the path of a file, a choice of values, or nothing that is known."""
    return "file" if argument.is_file else " ".join(argument.values) or "-"


def bash(_, top, commands):
    cases, patterns, first = [], [], top.entries("Options")
    for name, of in commands.items():
        options, arguments = of.entries("Options"), of.entries("Arguments")
        kinds = " ".join(f"'{kind(it)}'" for it in arguments)
        valued = " ".join(option_names(options, True))
        names = " ".join(option_names(options))
        cases.append(f"        {name}) options='{names}' valued='{valued}' arguments=({kinds}) ;;")
        patterns.append(name)
    return f"""\
# Completion of `club` for bash. Made by tests/gate/manual.py --write from the help texts of the program.
_club() {{
    local word current=${{COMP_WORDS[COMP_CWORD]}} file='' command='' count=0 skip='' at
    local options='{" ".join(option_names(first))}' valued='{" ".join(option_names(first, True))}'
    local arguments=()
    COMPREPLY=()
    for ((at = 1; at < COMP_CWORD; at++)); do
        word=${{COMP_WORDS[at]}}
        if [[ $skip ]]; then
            skip=''
        elif [[ $word == -?* ]]; then
            [[ " $valued " != *" $word "* ]] || skip=yes
        elif [[ ! $file ]]; then
            file=$word
        elif [[ ! $command ]]; then
            command=$word
            _club_command "$command" || return 0
        else
            count=$((count + 1))
        fi
    done
    if [[ $skip ]]; then
        return 0
    elif [[ $current == -?* || ( $current == - && ! $command ) ]]; then
        mapfile -t COMPREPLY < <(compgen -W "$options" -- "$current")
    elif [[ ! $file ]]; then
        _club_files
    elif [[ ! $command ]]; then
        mapfile -t COMPREPLY < <(compgen -W '{" ".join(patterns)}' -- "$current")
    elif [[ ${{arguments[count]-}} == file ]]; then
        _club_files
    elif [[ ${{arguments[count]--}} != - ]]; then
        mapfile -t COMPREPLY < <(compgen -W "${{arguments[count]}}" -- "$current")
    fi
}}

_club_command() {{ # COMMAND: sets its options and the kinds of its arguments
    case $1 in
{chr(10).join(cases)}
        *) return 1 ;;
    esac
}}

_club_files() {{
    mapfile -t COMPREPLY < <(compgen -f -- "$current")
    compopt -o filenames 2> /dev/null || true
}}

complete -F _club club
"""


def zsh_text(text):
    """A description within single quotes, in which brackets and colons are escaped."""
    text = VALUES.sub("", text).replace("'", "'\\''")
    return re.sub(r"([\[\]:])", r"\\\1", text)


def zsh_option(option):
    text, value = zsh_text(option.text), f":{option.value}: " if option.value else ""
    if len(option.names) == 1:
        return f"'{option.names[0]}[{text}]{value}'"
    return f"'({' '.join(option.names)})'{{{','.join(option.names)}}}'[{text}]{value}'"


def zsh_argument(argument):
    action = "_files" if argument.is_file else f"({' '.join(argument.values)})" if argument.values else " "
    number = "*" if argument.is_repeated else ""
    return f"'{number}:{zsh_text(argument.value)}:{action}'"


def zsh(_, top, commands):
    names = [f"        '{name}:{zsh_text(of.about[0])}'" for name, of in commands.items()]
    cases = []
    for name, of in commands.items():
        words = [*map(zsh_option, of.entries("Options")), *map(zsh_argument, of.entries("Arguments"))]
        cases.append(f"        {name}) _arguments -s {' '.join(words)} ;;")
    options = " \\\n        ".join(map(zsh_option, top.entries("Options")))
    return f"""\
#compdef club
# Completion of `club` for zsh. Made by tests/gate/manual.py --write from the help texts of the program.
_club() {{
    local -a names
    local curcontext="$curcontext" state line
    names=(
{chr(10).join(names)}
    )
    _arguments -s -C \\
        {options} \\
        '1:FILE:_files' '*:::COMMAND:->command'
    [[ $state == command ]] || return
    if ((CURRENT == 1)); then
        _describe command names
    else
        _club_argument "$words[1]"
    fi
}}

_club_argument() {{
    case $1 in
{chr(10).join(cases)}
    esac
}}

_club "$@"
"""


def fish_quoted(text):
    text = VALUES.sub("", text).replace("\\", "\\\\").replace("'", "\\'")
    return f"'{text}'"


def fish_option(option, condition):
    names = " ".join(f"-l {it[2:]}" if it.startswith("--") else f"-s {it[1:]}" for it in option.names)
    value = " -x" if option.value else ""
    return f"complete -c club -n {condition} {names}{value} -d {fish_quoted(option.text)}"


def fish(_, top, commands):
    options = [it for of in (top, *commands.values()) for it in of.entries("Options")]
    valued = " ".join(option_names(options, True))
    lines = f"""\
# Completion of `club` for fish. Made by tests/gate/manual.py --write from the help texts of the program.
function __club_words # the words of the line that are no options and no values of options
    set -l skip no
    for word in (commandline -opc)[2..-1]
        if test $skip = yes
            set skip no
        else if contains -- $word {valued}
            set skip yes
        else if not string match -q -- '-?*' $word
            echo $word
        end
    end
end

function __club_is_at # COUNT [COMMAND]: so many words are given, the second of them this command
    set -l words (__club_words)
    test (count $words) -eq $argv[1]; or return 1
    test (count $argv) -eq 1; or test "$words[2]" = $argv[2]
end

function __club_is_in # COMMAND: it is given
    set -l words (__club_words)
    test (count $words) -ge 2; and test "$words[2]" = $argv[1]
end

complete -c club -f
complete -c club -n '__club_is_at 0' -F
""".splitlines()
    lines += [fish_option(it, "'__club_is_at 0'") for it in top.entries("Options")]
    for name, of in commands.items():
        lines.append(f"complete -c club -n '__club_is_at 1' -a {name} -d {fish_quoted(of.about[0])}")
        lines += [fish_option(it, f"'__club_is_in {name}'") for it in of.entries("Options")]
        for at, argument in enumerate(of.entries("Arguments"), 2):
            if argument.is_file:
                lines.append(f"complete -c club -n '__club_is_at {at} {name}' -F")
            elif argument.values:
                lines.append(f"complete -c club -n '__club_is_at {at} {name}' -a '{' '.join(argument.values)}'")
    return "\n".join(lines) + "\n"


MADE = {PAGE: man_page, f"{COMPLETIONS}/club.bash": bash, f"{COMPLETIONS}/_club": zsh, f"{COMPLETIONS}/club.fish": fish}


def main():
    texts = read_all()
    for name, make in MADE.items():
        path, made = TOP / name, make(*texts)
        if sys.argv[1:] == ["--write"]:
            path.write_text(made, encoding="utf-8")
        else:
            is_current = path.is_file() and path.read_text(encoding="utf-8") == made
            result(is_current, f"{name} is made from the help texts of the program",
                   "write it with: python3 tests/gate/manual.py --write")
    return exit_status()


if __name__ == "__main__":
    sys.exit(main())
