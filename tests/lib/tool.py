"""A tool of tools/, which is called in this process: that is quicker than a process for each run."""
import contextlib
import importlib.machinery
import importlib.util
import io
import sys

from lib.club import TOP


class Tool:
    """A tool, read once for all runs."""

    def __init__(self, name):
        self.path = str(TOP / "tools" / name)
        sys.path.insert(0, str(TOP / "tools"))
        loader = importlib.machinery.SourceFileLoader(f"tool_{name}", self.path)
        self.module = importlib.util.module_from_spec(importlib.util.spec_from_loader(loader.name, loader))
        loader.exec_module(self.module)

    def run(self, *words):
        """Its status, its output and its messages."""
        output, messages = io.TextIOWrapper(io.BytesIO(), "utf-8", newline=""), io.StringIO()
        sys.argv = [self.path, *map(str, words)]
        with contextlib.redirect_stdout(output), contextlib.redirect_stderr(messages):
            try:
                status = self.module.main()
            except SystemExit as ended:
                status = ended.code
        output.flush()
        return status, output.buffer.getvalue().decode(), messages.getvalue()
