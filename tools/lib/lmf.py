"""Frame files (`LMF`), read; and turned into a log of calls that analyses each frame and plays its lines back."""
import struct

from lib import lmc


class Damaged(Exception):
    """What is wrong with a frame file."""


def frames(data):
    """The configuration and the frames of a file."""
    if len(data) < 6:
        raise Damaged('shorter than 6 bytes')
    if data[:3] != b'LMF':
        raise Damaged('no mark LMF')
    version, config = struct.unpack_from('<HB', data, 3)
    if version != 1:
        raise Damaged(f'version {version}, not 1')
    if config >= len(lmc.NF):
        raise Damaged(f'configuration {config}, above {len(lmc.NF) - 1}')
    size = 2 * lmc.NF[config]
    if (len(data) - 6) % size:
        raise Damaged('the last frame is cut')
    return config, [struct.unpack_from(f'<{size // 2}h', data, at) for at in range(6, len(data), size)]


def analysis_log(config, given):
    """A clear of the analysis channel, and each frame analysed."""
    calls = [lmc.analyse(frame, lmc.NF[config], lmc.NB[config], lmc.NB[config]) for frame in given]
    return lmc.HEADER + lmc.clear_analysis(config) + b''.join(calls)


def lines_of(answer):
    """The bits of the lines that an analysis frame answered with."""
    name, places = answer.areas[0]
    if name != 'lines' or answer.number != 0:
        raise Damaged('the oracle refused a frame')
    return [int(place, 16) for place in places]


def whole_log(config, given, lines):
    """Clears of both channels; then for each frame a call that analyses it and one that plays its first ne lines. Frame k is calls 2k + 2 and 2k + 3."""
    parts = [lmc.HEADER, lmc.clear_analysis(config), lmc.clear_synthesis(config)]
    for frame, bits in zip(given, lines, strict=True):
        parts.append(lmc.analyse(frame, lmc.NF[config], lmc.NB[config], lmc.NB[config]))
        parts.append(lmc.synthesise(bits[:lmc.NE[config]], lmc.NF[config]))
    return b''.join(parts)
