"""A copy of lc3-codec's files with the short frames, which lc3-codec does not have: lines are put in, and none is changed or left out.

What is put in are rows, edges and windows of data/, those of the configurations that lc3-codec lacks. Each such line ends with MARK: without them the copy is
the original. A file that PUT_IN does not name (complex.rs, kissfft.rs, dct_iv.rs) needs no copy."""
import itertools
from collections import namedtuple

from lib import data_files
from lib.tool import ROOT

MARK = ' // put in'
END = None  # the place after a file's last line
DURATIONS = {7500: 'SevenPointFiveMs', 10000: 'TenMs', 5000: 'FiveMs', 2500: 'TwoPointFiveMs'}  # in the Rust, by microseconds

Row = namedtuple('Row', 'config rate edges_name edges window')


class NoPlace(Exception):
    """Where a line is to be put in, a file is not as it has to be."""


def read_rows(short):
    """The configurations that lc3-codec lacks, or those that it has, with the rate's index in the Rust, the edges and the window of each."""
    configs = data_files.read_configs(ROOT)
    rates = sorted({config.fs for config in configs})
    rows = zip(configs, data_files.read_bands(ROOT), data_files.read_windows(ROOT))
    return [Row(config, rates.index(config.fs), *bands, window) for config, bands, window in rows if data_files.of_crate(config) != short]


def by_duration(rows):
    """The name of each duration in the Rust, its milliseconds, and its rows."""
    for duration, group in itertools.groupby(rows, lambda row: row.config.duration):
        yield f'FrameDuration::{DURATIONS[duration]}', f'{duration / 1000:g}ms', list(group)


def variants(rows):
    """The durations, in config.rs."""
    for name, _, _ in by_duration(rows):
        yield f'    {name.split("::")[1]},'


def sizes(rows):
    """The sizes of each rate, in config.rs."""
    for name, duration, group in by_duration(rows):
        yield f'            {name} => {{'
        yield '                (nf, ne, nb, z) = match sampling_frequency {'
        for c, *_ in group:
            yield f'                    SamplingFrequency::Hz{c.fs} => ({c.nf}, {c.ne}, {c.nb}, {c.z}),'
        yield f'                    _ => panic!("no configuration of {duration} has this rate"),'
        yield '                };'
        yield '            }'


def lookups(rows, field, arm):
    """The tables that a duration looks up by a field of the configuration, an arm for each row."""
    for name, duration, group in by_duration(rows):
        yield f'            {name} => match config.{field} {{'
        for row in group:
            yield f'                {arm(row)},'
        yield f'                _ => panic!("Cannot lookup wn for {duration}, invalid {field}: {{}}", config.{field}),'
        yield '            },'


def encoder_tables(rows):
    """The window and the edges, in encoder/modified_dct.rs."""
    return lookups(rows, 'fs_ind', lambda row: f'{row.rate} => ({row.window.name}.as_slice(), {row.edges_name}.as_slice())')


def decoder_tables(rows):
    """The window, in decoder/modified_dct.rs."""
    return lookups(rows, 'nf', lambda row: f'{row.config.nf} => &{row.window.name}')


def upper_bands(rows):
    """Where the bands begin that the flag counts as upper, in encoder/modified_dct.rs: there a matter of the duration alone."""
    for name, duration, group in by_duration(rows):
        counts = {row.config.upper for row in group}
        if len(counts) != 1:
            raise NoPlace(f'data/configs.txt: not one count of upper bands for {duration}')
        yield f'                {name} => self.config.nb - {counts.pop()},'


def edge_constants(rows):
    """The edges, in band_index_tables.rs."""
    for row in rows:
        yield f'pub const {row.edges_name}: [usize; {len(row.edges)}] = [{", ".join(map(str, row.edges))}];'


def window_constant(window):
    """A window by its bits. The name of its type needs no import, whatever the file has."""
    entries = ', '.join(f'f32::from_bits(0x{b:08x})' for b in window.bits)
    return f'pub const {window.name}: [f32; {len(window.bits)}] = [{entries}];'


def window_constants(rows):
    """The windows, in mdct_windows.rs."""
    return (window_constant(row.window) for row in rows)


# For each file, the lines after which lines are put in, and these.
PUT_IN = {
    ('common', 'config'): [('pub enum FrameDuration {', variants), ('match frame_duration {', sizes)],
    ('encoder', 'modified_dct'): [
        ('let (window, i_fs) = match config.n_ms {', encoder_tables),
        ('let nn_idx = match self.config.n_ms {', upper_bands),
    ],
    ('decoder', 'modified_dct'): [("let wn: &'static [Scaler] = match config.n_ms {", decoder_tables)],
    ('tables', 'band_index_tables'): [(END, edge_constants)],
    ('tables', 'mdct_windows'): [(END, window_constants)],
}


def place_after(lines, anchor):
    """The place after the one line that is the anchor, or after the last."""
    if anchor is END:
        if not ''.join(lines[-1:]).endswith('\n'):
            raise NoPlace('no newline at the end')
        return len(lines)
    found = [place for place, line in enumerate(lines, 1) if line.strip() == anchor]
    if len(found) != 1:
        raise NoPlace(f'{len(found)} lines `{anchor}`, and not one')
    return found[0]


def copied(module, text, rows):
    """The text of a module's file, with the lines of these rows put in."""
    lines = text.splitlines(keepends=True)
    for anchor, written in PUT_IN[module]:
        place = place_after(lines, anchor)
        lines[place:place] = [line + MARK + '\n' for line in written(rows)]
    return ''.join(lines)
