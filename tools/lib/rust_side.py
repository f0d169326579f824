"""lc3-codec's own sources, compiled unchanged by plain rustc with a main program of ours; and a copy of them with the short frames (short_copy.py).
Behind the encoder's file, in one module with it, stand a function that calls its measurement alone, and one that calls the flag alone.

The folder of the sources is RUST_SRC, by default ../shared/docs/src beside the repository: the crate's own folder or one with its seven files.
Where it has no mdct_windows.rs, one is made from data/windows.txt. The copy is made anew at every build, in the room of the program."""
import os
import pathlib
import shutil
import subprocess

from lib import data_files, short_copy
from lib.tool import ROOT

STAND_INS = ROOT / 'tools' / 'rust' / 'oracle'
STAND_IN_CRATES = ('itertools', 'num_traits')
SHORT = 'short_frames'  # the copy, as a crate
MODULES = {
    'common': ['complex', 'config', 'dct_iv', 'kissfft'],
    'encoder': ['modified_dct'],
    'decoder': ['modified_dct'],
    'tables': ['band_index_tables', 'mdct_windows'],
}
# What stands behind a file's text, in one module with it: lc3-codec's measurement is in two functions of its own, which nothing outside of their module may call.
BEHIND = {
    ('encoder', 'modified_dct'): (
        "impl<'a> ModDiscreteCosTrans<'a> { pub fn measure(&self, lines: &[Scaler], energies: &mut [Scaler]) -> bool "
        '{ self.apply_energy_estimation(lines, energies); self.is_near_nyquist(energies) } '
        'pub fn flag(&self, energies: &[Scaler]) -> bool { self.is_near_nyquist(energies) } }'
    ),
}


class Missing(Exception):
    """What the Rust's side needs and does not find."""


class Failed(Missing):
    """The Rust is there, and no program was made of it."""


def asked_for():
    """Whether not to run is a failure: the sources' folder was named, or a service runs the gate, where nobody reads on."""
    return 'RUST_SRC' in os.environ or os.environ.get('CI', '').lower() not in ('', '0', 'false')


def not_run(tool, what, missing):
    """Says that something was not compared, and why; the status, a failure where it was asked for and where the Rust is there and fails."""
    print(f'{tool}: NOT RUN: {what} not compared with the Rust: {missing}')
    return int(asked_for() or isinstance(missing, Failed))


def sources():
    """The folder with lc3-codec's common/, tables/ and the others."""
    given = pathlib.Path(os.environ.get('RUST_SRC') or ROOT.parent / 'shared' / 'docs' / 'src').resolve()
    if shutil.which('rustc') is None:
        raise Missing('no rustc on the path')
    for folder in (given / 'src', given):
        if (folder / 'common' / 'kissfft.rs').is_file():
            return folder
    raise Missing(f'no sources of lc3-codec at {given}; RUST_SRC is to name their folder')


def rows(short):
    """The rows of data/ that lc3-codec has, or those that only its copy has."""
    try:
        return short_copy.read_rows(short)
    except data_files.Bad as why:
        raise Failed(why) from None


def spans(numbers):
    """Ascending numbers in words, as `0 to 9`."""
    runs = []
    for number in numbers:
        if runs and number == runs[-1][-1] + 1:
            runs[-1].append(number)
        else:
            runs.append([number])
    return ', '.join(f'{run[0]} to {run[-1]}' if len(run) > 1 else str(run[0]) for run in runs)


def whose():
    """A line that says whose code and whose values the Rust's side runs on."""
    own, short = (spans(row.config.number for row in rows(short)) for short in (False, True))
    return (
        f"configurations {own} are lc3-codec's own code; {short}, which it does not have, are its code with liblc3 1.1.3's values "
        'for ETSI TS 103 634 put in'
    )


def windows_module():
    """data/windows.txt as the crate's mdct_windows.rs has it, in bits."""
    return ''.join(short_copy.window_constant(row.window) + '\n' for row in rows(short=False))


def module_file(source, room, folder, name):
    """Where a module's text stands; the windows are written to the room where the sources lack them."""
    path = source / folder / f'{name}.rs'
    if name == 'mdct_windows' and not path.is_file():
        path = room / 'mdct_windows.rs'
        path.write_text(windows_module(), encoding='ascii')
    return path


def own_windows():
    """Whether the sources have windows of their own."""
    return (sources() / 'tables' / 'mdct_windows.rs').is_file()


def copied_file(path, room, module):
    """Where a module of the copy stands, written to the room; where nothing is put in, the original."""
    if module not in short_copy.PUT_IN:
        return path
    folder, name = module
    copy = room / SHORT / folder / f'{name}.rs'
    copy.parent.mkdir(parents=True, exist_ok=True)
    try:
        text = path.read_bytes().decode('utf-8')
        copy.write_bytes(short_copy.copied(module, text, rows(short=True)).encode('utf-8'))
    except OSError as why:
        raise Failed(f'{path}: {why.strerror}') from None
    except (UnicodeDecodeError, short_copy.NoPlace) as why:
        raise Failed(f'{path}: {why}') from None
    return copy


def places(source, room, short):
    """Where each module stands: of lc3-codec, or of its copy."""
    own = {(folder, name): module_file(source, room, folder, name) for folder, names in MODULES.items() for name in names}
    return {module: copied_file(path, room, module) for module, path in own.items()} if short else own


def configs_module(short):
    """The configurations by number: those that lc3-codec has, or those that only its copy has."""
    arms = [
        f'{row.config.number} => Some(Lc3Config::new(SamplingFrequency::Hz{row.config.fs}, FrameDuration::{short_copy.DURATIONS[row.config.duration]})),'
        for row in rows(short)
    ]
    return (
        'use crate::common::config::{FrameDuration, Lc3Config, SamplingFrequency}; '
        f'pub fn config(number: u8) -> Option<Lc3Config> {{ match number {{ {" ".join(arms)} _ => None }} }}'
    )


def declared(path, folder, name):
    """A module of a file as it stands, and of what is wanted behind it."""
    if (folder, name) in BEHIND:
        return f'pub mod {name} {{ include!("{path}"); {BEHIND[folder, name]} }}'
    return f'#[path = "{path}"] pub mod {name};'


def root_module(at, short, more=''):
    """The root of a crate: lc3-codec's modules, or its copy's, where they stand, their configurations by number, and what else it is to hold."""
    text = ['#![allow(dead_code)]', f'pub mod configs {{ {configs_module(short)} }}']
    for folder, names in MODULES.items():
        inner = [declared(at[folder, name], folder, name) for name in names]
        text.append(f'pub mod {folder} {{ {" ".join(inner)} }}')
    return '\n'.join([*text, more, ''])


def rustc(words):
    """Runs rustc; what it says goes to standard error only where it fails."""
    command = ['rustc', '--edition', '2021', '-C', 'opt-level=3', '--cap-lints', 'allow', *map(str, words)]
    done = subprocess.run(command, capture_output=True, text=True, check=False)
    if done.returncode:
        raise Failed('rustc does not compile the sources:\n' + done.stderr)


def library(room, crate, root, words):
    """Compiles a crate that others use; the words that let them."""
    made = room / f'lib{crate}.rlib'
    rustc([*words, '--crate-type', 'rlib', '--crate-name', crate, root, '-o', made])
    return ['--extern', f'{crate}={made}']


def written(path, text):
    """A file of this text."""
    path.write_text(text, encoding='utf-8')
    return path


def build(main, name, taken='', short=False, beside=False, target=(), link=()):
    """Compiles lc3-codec with a main program of ours, and what that takes out of the sources, to target/rust/NAME/NAME; returns its path.

    With `short` the copy is compiled in its stead; with `beside` the program may also use it, as the crate short_frames.
    `target` goes to every run of rustc, `link` to the last."""
    source = sources()
    room = ROOT / 'target' / 'rust' / name
    room.mkdir(parents=True, exist_ok=True)
    words = [*target, '-L', f'dependency={room}']  # where the copy finds the crates that it uses itself
    for crate in STAND_IN_CRATES:
        words += library(room, crate, STAND_INS / f'{crate}.rs', target)
    if beside:
        root = written(room / f'{SHORT}.rs', root_module(places(source, room, True), True))
        words += library(room, SHORT, root, words)
    program = f'mod taken {{ {taken} }}\n#[path = "{main}"] mod program;\nfn main() -> std::io::Result<()> {{ program::main() }}'
    root = written(room / f'{name}.rs', root_module(places(source, room, short), short, program))
    rustc([*words, *link, root, '-o', room / name])
    return room / name


def oracle():
    """The Rust's side of the bench, compiled anew: lc3-codec, and beside it the copy with the short frames."""
    return build(STAND_INS / 'main.rs', 'oracle', beside=True)
