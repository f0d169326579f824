"""The log of calls (`LMC`), written: a function for each kind of call gives its bytes."""
import struct

from lib import data_files


def columns():
    """The columns of data/configs.txt, each a list by configuration."""
    return (list(map(int, column)) for column in zip(*data_files.rows('configs.txt'), strict=True))


VERSION = 3
HEADER = b'LMC' + struct.pack('<H', VERSION)
_, DURATION, RATE, NF, Z, NE, NB, UPPER = columns()  # durations in microseconds, rates in Hz
EDGES = [list(map(int, edges)) for _, *edges in data_files.rows('bands.txt')]
WIDTHS = [[high - low for low, high in zip(edges, edges[1:])] for edges in EDGES]  # the number of lines of each band
SIZES = sorted({n // 2 for n in NF})
LENGTHS = sorted(set(NF))
ROOM = 300


def beside(counts):
    """The numbers next to one of the counts that are none of them."""
    return sorted({count + step for count in counts for step in (-1, 1)} - set(counts))


def floats(patterns):
    """A count and that many f32 by their bits."""
    return struct.pack(f'<H{len(patterns)}I', len(patterns), *patterns)


def samples(values):
    """A count and that many samples."""
    return struct.pack(f'<H{len(values)}h', len(values), *values)


def clear_analysis(config):
    return bytes([1, config])


def analyse(frame, lines, energies, peaks):
    """A frame to lines, and the measurement of these."""
    return bytes([2]) + samples(frame) + struct.pack('<HHH', lines, energies, peaks)


def clear_synthesis(config):
    return bytes([3, config])


def synthesise(lines, length):
    return bytes([4]) + floats(lines) + struct.pack('<H', length)


def fft(size, inverse, real, imag, real_out, imag_out):
    return struct.pack('<BHB', 5, size, inverse) + floats(real) + floats(imag) + struct.pack('<HH', real_out, imag_out)


def dct(length, values):
    return struct.pack('<BH', 6, length) + floats(values)


def loudest(config, energies):
    return bytes([7, config]) + floats(energies)


def show():
    return bytes([8])


def set_analysis(config, values):
    return bytes([9, config]) + samples(values)


def set_synthesis(config, values):
    return bytes([10, config]) + floats(values)


def transform(frame, lines):
    return bytes([11]) + samples(frame) + struct.pack('<H', lines)


def measure(config, lines, energies, peaks):
    return bytes([12, config]) + floats(lines) + struct.pack('<HH', energies, peaks)


def near_nyquist(config, energies):
    """The flag, sooner."""
    return bytes([14, config]) + floats(energies)
