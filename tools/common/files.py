"""Files that a tool replaces in one step, and a lock that keeps a second run out."""
import contextlib
import fcntl
import os
import tempfile


class FileError(Exception):
    """Why a file is not taken."""


@contextlib.contextmanager
def locked(path):
    """Holds a lock beside a file, so that two runs do not do the same."""
    handle = os.open(f"{path}.lock", os.O_RDWR | os.O_CREAT | os.O_CLOEXEC, 0o600)
    try:
        try:
            fcntl.flock(handle, fcntl.LOCK_EX | fcntl.LOCK_NB)
        except BlockingIOError:
            raise FileError(f"another run holds {path}.lock") from None
        yield
    finally:
        os.close(handle)


def replace_file(path, data, prefix, mode=0o600):
    """Replaces a file in one step, so that a crash leaves the old one or the new one."""
    handle, name = tempfile.mkstemp(dir=os.path.dirname(path), prefix=prefix)
    try:
        with os.fdopen(handle, "wb") as file:
            os.fchmod(file.fileno(), mode)
            file.write(data)
            file.flush()
            os.fsync(file.fileno())
        os.replace(name, path)
    except BaseException:
        os.unlink(name)
        raise
