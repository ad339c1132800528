"""Completes lines in an interactive zsh, on a terminal of its own."""
import os
import pty
import select
import signal
import time

CLEAR = b"\x15"  # Control-U


def read_until(terminal, text, seconds):
    """What is printed until this text has come, or until the time is over."""
    printed, end = "", time.monotonic() + seconds
    while text not in printed and (left := end - time.monotonic()) > 0:
        if select.select([terminal], [], [], left)[0]:
            try:
                printed += os.read(terminal, 65536).decode(errors="replace")
            except OSError:
                break
    return printed


def complete(lines, functions, folder, seconds=30):
    """What each line is after a tabulator, in this folder, with the completions in the folder `functions`.

    A line comes with what it must become, which is waited for.
    """
    child, terminal = pty.fork()
    if child == 0:
        os.chdir(folder)
        os.environ["TERM"] = "dumb"
        os.execvp("zsh", ["zsh", "-f", "-i"])
    try:
        start = f"PS1=; fpath=({functions} $fpath); autoload -Uz compinit; compinit -u -D; unsetopt beep"
        os.write(terminal, f"{start}; echo rea''dy\n".encode())
        read_until(terminal, "\nready", seconds)
        found = []
        for number, (line, expected) in enumerate(lines):
            os.write(terminal, line.encode() + b"\t")
            found.append(read_until(terminal, expected, seconds))
            os.write(terminal, CLEAR + f"echo nex''t{number}\n".encode())
            read_until(terminal, f"\nnext{number}\r\n", seconds)
        return found
    finally:
        os.kill(child, signal.SIGKILL)
        os.waitpid(child, 0)
        os.close(terminal)
