"""What the commands have in common: where they and the repository stand, the option that one takes, and how a check ends."""
import pathlib
import re
import sys
from importlib.machinery import SourceFileLoader
from importlib.util import module_from_spec, spec_from_loader

ROOT = pathlib.Path(__file__).resolve().parents[2]
FOLDERS = ('tools', 'tools/gate', 'tools/tests')


def path(name, root=ROOT):
    """Where a command or a test stands, in the repository or in a copy."""
    return next(root / folder / name for folder in FOLDERS if (root / folder / name).is_file())


def load(name):
    """A command or a test, which has no suffix, as a module."""
    loader = SourceFileLoader(name, str(path(name)))
    module = module_from_spec(spec_from_loader(name, loader))
    loader.exec_module(module)
    return module


def asked(words, name, option=None):
    """Whether a command was given its one option, if it has one; ends it where it was given anything else."""
    if words not in ([], [option]):
        sys.exit(f'usage: {name} [{option}]' if option else f'usage: {name}')
    return bool(words)


def verdict(name, wrong, summary=None):
    """Prints a line for each thing that is wrong, or else what `summary` gives, if anything; the status."""
    for line in wrong or ([summary()] if summary else []):
        print(f'{name}: {line}')
    return int(bool(wrong))


def section(text, heading):
    """The text of a paper under a heading, up to the next one of its level or above; nothing where it has no such heading."""
    level = heading.index(' ')
    found = re.search(rf'^{heading}\n(.*?)(?=^#{{1,{level}}} |\Z)', text, re.S | re.M)
    return found.group(1) if found else ''


def stale(root, files):
    """The paths whose files are not of these bytes."""
    for name, data in files.items():
        place = root / name
        if not place.is_file() or place.read_bytes() != data:
            yield name


def write(root, files):
    """Writes the files that are not of these bytes."""
    for name in list(stale(root, files)):
        (root / name).parent.mkdir(parents=True, exist_ok=True)
        (root / name).write_bytes(files[name])
