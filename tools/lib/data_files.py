"""The files of data/, read: the configurations, their bands and windows, the twiddles and the gains."""
import re
from collections import namedtuple

from lib.tool import ROOT

CRATE_DURATIONS = (7500, 10000)  # of the frames that lc3-codec knows, in microseconds

Config = namedtuple('Config', 'number duration fs nf z ne nb upper')
Window = namedtuple('Window', 'name nf z bits')


class Bad(Exception):
    """A file of data is missing, cut or malformed: the message says which, and where."""


def rows(name):
    """The words of each line of a file of the repository's data/ as it stands, but for comments."""
    lines = (ROOT / 'data' / name).read_text(encoding='ascii').splitlines()
    return [line.split() for line in lines if line and not line.startswith('#')]


def read_text(path):
    """The text of a file that ends with a newline."""
    try:
        text = path.read_text(encoding='utf-8')
    except (OSError, UnicodeDecodeError) as why:
        raise Bad(f'{path}: {getattr(why, "strerror", None) or "not text"}') from None
    if not text.endswith('\n'):
        raise Bad(f'{path}: cut: no newline at the end')
    return text


def read_words(path):
    """For each line but comments: where it stands, and its words."""
    for place, line in enumerate(read_text(path).splitlines(), 1):
        if line.split() and not line.startswith('#'):
            yield f'{path}:{place}', line.split()


def numbers(where, words):
    """Whole decimal numbers."""
    for word in words:
        if not re.fullmatch(r'[0-9]+', word):
            raise Bad(f'{where}: {word} is no whole number')
    return [int(word) for word in words]


def patterns(where, words, count):
    """So many f32 bit patterns of eight hexadecimal digits."""
    for word in words:
        if not re.fullmatch(r'[0-9a-f]{8}', word):
            raise Bad(f'{where}: {word} is no pattern of eight hexadecimal digits')
    if len(words) != count:
        raise Bad(f'{where}: {len(words)} values, and not {count}')
    return [int(word, 16) for word in words]


def read_configs(root):
    """The configurations, numbered from 0."""
    path = root / 'data' / 'configs.txt'
    configs = []
    for where, words in read_words(path):
        row = numbers(where, words)
        if len(row) != len(Config._fields) or row[0] != len(configs):
            raise Bad(f'{where}: not the row of configuration {len(configs)}')
        configs.append(Config(*row))
    if not configs:
        raise Bad(f'{path}: no configuration')
    return configs


def of_crate(config):
    """Whether lc3-codec has the configuration, with a window and band edges of its own."""
    return config.duration in CRATE_DURATIONS


def read_bands(root):
    """For each configuration, the name of its table in the Rust and its nb + 1 band edges."""
    path = root / 'data' / 'bands.txt'
    configs = read_configs(root)
    bands = [(where, words[0], numbers(where, words[1:])) for where, words in read_words(path)]
    if len(bands) != len(configs):
        raise Bad(f'{path}: {len(bands)} rows, and not {len(configs)}')
    for (where, _, edges), config in zip(bands, configs):
        if len(edges) != config.nb + 1:
            raise Bad(f'{where}: {len(edges)} edges, and not {config.nb + 1}')
    return [(name, edges) for _, name, edges in bands]


def read_window_file(root, name, configs):
    """The windows of these configurations, by number, from the file that has them and no others."""
    path = root / 'data' / name
    rows = list(read_words(path))
    if len(rows) != len(configs):
        raise Bad(f'{path}: {len(rows)} windows, and not {len(configs)}')
    windows = {}
    for (where, words), config in zip(rows, configs):
        if words[1:3] != [str(config.nf), str(config.z)]:
            raise Bad(f'{where}: not the window of configuration {config.number}')
        windows[config.number] = Window(words[0], config.nf, config.z, patterns(where, words[3:], 2 * config.nf))
    return windows


def read_windows(root):
    """For each configuration, its window: the name in the Rust, nf, z, and 2 nf bit patterns."""
    configs = read_configs(root)
    own = read_window_file(root, 'windows.txt', [config for config in configs if of_crate(config)])
    short = read_window_file(root, 'windows_short.txt', [config for config in configs if not of_crate(config)])
    return [{**own, **short}[config.number] for config in configs]


def sizes_of(configs):
    """The FFT sizes of the configurations, each once, from the smallest."""
    return sorted({config.nf // 2 for config in configs})


def twiddle_tables(root):
    """The name, the size and the length of each row of data/twiddles.txt, in order."""
    sizes = sizes_of(read_configs(root))
    parts = [(name, size, size) for name in ('fft_re', 'fft_im', 'dct_re', 'dct_im') for size in sizes]
    return parts + [('gain', 2 * size, 1) for size in sizes]


def read_twiddles(root):
    """The bit patterns of each twiddle table and each gain, by name and size."""
    path = root / 'data' / 'twiddles.txt'
    rows, tables = list(read_words(path)), twiddle_tables(root)
    if len(rows) != len(tables):
        raise Bad(f'{path}: {len(rows)} rows, and not {len(tables)}')
    found = {}
    for (where, words), (name, size, length) in zip(rows, tables):
        if words[:2] != [name, str(size)]:
            raise Bad(f'{where}: not the row of {name} {size}')
        found[name, size] = patterns(where, words[2:], length)
    return found
