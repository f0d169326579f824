"""A copy of the repository's crates, in which some files are changed and a crate is checked.

It has what a proof reads. What `rt` kept of the same crates in the repository, it takes from there by itself, so that only what was changed is proved anew."""
import contextlib
import os
import pathlib
import queue
import re
import shutil
import subprocess
import tempfile
from concurrent.futures import ThreadPoolExecutor

from lib import tool

READ = ('src', 'specs', 'proofs')
GIGABYTES = 4  # memory that a check beside others may take
ERROR = re.compile(r'^(?:\./)?(\S+?):(\d+):\d+: error: (.*(?:\n  .*)*)', re.M)
DECLARATION = re.compile(r'`([^`]+)`: ')
FOLLOWS = re.compile(r'`[^`]+`: `[^`]+` was not admitted|\d+ declarations? that depends? on ')


class Copy:
    """A copy in a folder of its own."""

    def __init__(self, folder, root=None):
        self.folder = folder
        root = root or tool.ROOT
        for crate in sorted((root / 'crates').iterdir()):
            for part in READ:
                if (crate / part).is_dir():
                    shutil.copytree(crate / part, folder / 'crates' / crate.name / part)
        shutil.copy(root / 'crates.txt', folder)

    @contextlib.contextmanager
    def changed(self, texts):
        """Has these texts in the place of those of some files, by their paths, and puts the files back."""
        before = {path: (self.folder / path).read_bytes() for path in texts}
        try:
            for path, text in texts.items():
                (self.folder / path).write_text(text, encoding='utf-8')
            yield
        finally:
            for path, data in before.items():
                (self.folder / path).write_bytes(data)

    def check(self, crate, texts):
        """What `rt check` says of a crate where these texts stand."""
        with self.changed(texts):
            return checked(self.folder / 'crates' / crate, '--jobs', '1')


def checked(folder, *words):
    """What `rt check` says in a crate's folder."""
    done = subprocess.run(['rt', 'check', *words], cwd=folder, stdin=subprocess.DEVNULL, capture_output=True, encoding='utf-8', errors='replace', check=False)
    return done.stdout + done.stderr


def errors(log):
    """Each error of a check, but for those that only follow from another: its file, its line, the declaration that it is at, if any, and its words."""
    for file, line, words in ERROR.findall(log):
        if not FOLLOWS.match(words):
            found = DECLARATION.match(words)
            yield file, int(line), found and found[1], words


def at_once():
    """How many checks go on at a time: as many as there are processors and memory for."""
    memory = os.sysconf('SC_PAGE_SIZE') * os.sysconf('SC_PHYS_PAGES')
    return max(1, min(len(os.sched_getaffinity(0)), memory // (GIGABYTES << 30)))


def each(made, call):
    """What a call gives of each thing that was made and of a copy that it has for itself, in their order."""
    free = queue.Queue()
    with contextlib.ExitStack() as stack:
        for _ in range(min(at_once(), len(made))):
            folder = stack.enter_context(tempfile.TemporaryDirectory())
            free.put(Copy(pathlib.Path(folder)))

        def one(thing):
            copy = free.get()
            try:
                return call(copy, thing)
            finally:
                free.put(copy)

        with ThreadPoolExecutor(at_once()) as pool:
            return list(pool.map(one, made))
