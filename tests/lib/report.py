"""The results of tests: one line each, `ok NAME` or `not ok NAME`. A name is a sentence that says what was tested."""

LONGEST = 2000  # letters of a value that is printed
failed = []


def result(is_ok, name, *details):
    """Prints the result of one test, and the details of a failure below it. Returns whether the test passed."""
    print(f"{'ok' if is_ok else 'not ok'} {name}", *(() if is_ok else details), sep="\n  ", flush=True)
    if not is_ok:
        failed.append(name)
    return bool(is_ok)


def check(name, expected, got):
    """Prints whether a test got what it expected; both values are printed if it did not."""
    return result(expected == got, name, f"expected: {str(expected)[:LONGEST]}", f"got:      {str(got)[:LONGEST]}")


def skip(name, reason):
    """Prints that a test was left out, and why."""
    print(f"skipped: {name} ({reason})", flush=True)


def exit_status():
    """The exit status of a program of tests."""
    return int(bool(failed))
