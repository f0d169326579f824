"""Both sides of the bench, as commands that read a log of calls and print their answers: the port's `replay` and the Rust's oracle."""
import contextlib
import subprocess
import sys
import tempfile

from lib import answers, kit, rust_side
from lib.rust_side import Missing


class NotBuilt(Missing):
    """The port's side cannot run, which has nothing to do with the Rust."""


class Broken(Exception):
    """A side that did not answer a log as it should."""


def replay():
    """The port's side."""
    try:
        return [str(kit.program('replay'))]
    except kit.NoKit as why:
        raise NotBuilt(why) from None


def oracle():
    """The Rust's side, compiled anew."""
    return [str(rust_side.oracle())]


@contextlib.contextmanager
def answered(command, log):
    """The answers of a side to a log, one by one."""
    with tempfile.TemporaryFile() as given, tempfile.TemporaryFile('w+', encoding='ascii') as text:
        given.write(log)
        given.seek(0)
        done = subprocess.run(command, stdin=given, stdout=text, stderr=subprocess.PIPE, check=False)
        if done.returncode or done.stderr:
            said = done.stderr.decode('utf-8', 'replace').strip().split('\n')[0]
            raise Broken(f'{command[-1]} ended with status {done.returncode}: {said}')
        text.seek(0)
        try:
            yield answers.answers(text)
        except answers.Unreadable as bad:
            raise Broken(f'{command[-1]} printed {bad}') from bad


@contextlib.contextmanager
def needed(tool, what, writing, *faults):
    """Ends a command whose work needs the Rust: with a line that says why where it fails, and with `NOT RUN` where the Rust is not there. To write without it is a failure."""
    try:
        yield
    except (rust_side.Failed, *faults) as why:
        sys.exit(f'{tool}: {why}')
    except Missing as missing:
        sys.exit(rust_side.not_run(tool, what, missing) or int(writing))


def compared(ours, rust, log):
    """Pairs of the Rust's answer and what differs, for each call of a log that both commands answer."""
    with answered(rust, log) as right, answered(ours, log) as left:
        yield from answers.compare(left, right)
