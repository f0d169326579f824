"""What the tests have in common: a folder of their own, and a command that ends in this process."""
import contextlib
import io
import pathlib
import sys
import tempfile
import unittest


class Room(unittest.TestCase):
    """Tests with a folder each."""

    def setUp(self):
        folder = tempfile.TemporaryDirectory()
        self.addCleanup(folder.cleanup)
        self.root = pathlib.Path(folder.name)

    def put(self, name, text):
        """A file of the folder; its path."""
        path = self.root / name
        path.parent.mkdir(parents=True, exist_ok=True)
        path.write_text(text, encoding='utf-8')
        return path

    def program(self, name, text):
        """A file of the folder that can be run; its path."""
        path = self.put(name, text)
        path.chmod(0o755)
        return path

    def files(self):
        """Every file of the folder, by its name there, with its bytes."""
        return {str(path.relative_to(self.root)): path.read_bytes() for path in self.root.rglob('*') if path.is_file()}


def ended(main, *given):
    """The status of a command, and what it wrote to standard output and to standard error."""
    out, err = io.StringIO(), io.StringIO()
    with contextlib.redirect_stdout(out), contextlib.redirect_stderr(err):
        try:
            status = main(*given)
        except SystemExit as end:
            status = end.code
            if isinstance(status, str):
                print(status, file=sys.stderr)
                status = 1
    return status or 0, out.getvalue(), err.getvalue()
