"""The measurement call of document 02 §5 and §12, the loudest band of its §2 and the flag, sooner, of its §7, from the papers' text alone: their refusals in
their order, and every operation rounded once to f32. And what a frame to lines answers, measured or not, but for the lines themselves.

f64 holds a product of two f32, and of their quotient and sum enough that rounding twice is rounding once."""
import struct

from lib import answers, f32, lmc
from lib.f32 import INFINITY, MINUS_ZERO, rounded, value

LIMIT = 0x5D800000  # 2^60


def running(values):
    """Their sum after each of them, added one after the other."""
    sum_so_far = 0.0
    for x in values:
        sum_so_far = rounded(sum_so_far + x)
        yield sum_so_far


def total(values):
    """Their sum, added one after the other."""
    return [0.0, *running(values)][-1]


def bands(config):
    """The first line of each band, and the line after its last."""
    return list(zip(lmc.EDGES[config], lmc.EDGES[config][1:]))


def energies(config, lines):
    """Of each band the squares of its lines, each divided by the band's width, added in line order."""
    return [total(rounded(rounded(x * x) / (high - low)) for x in lines[low:high]) for low, high in bands(config)]


def peaks(config, lines):
    """Of each band the place in the frame of its line with the greatest square, of equals the first."""
    return [max(range(low, high), key=lambda place: rounded(lines[place] * lines[place])) for low, high in bands(config)]


def first_upper(config):
    """The first band that the flag counts as upper."""
    return lmc.NB[config] - lmc.UPPER[config]


def near_nyquist(config, found):
    """Whether the energies of the upper bands are above 30.0 times those of the lower ones; never at 48 kHz."""
    first = first_upper(config)
    return lmc.RATE[config] <= 32000 and total(found[first:]) > rounded(30.0 * total(found[:first]))


def refusal(config, patterns, room, peak_room):
    """The number and the index of lines by their bits, and energies and peaks of so many places."""
    if config >= len(lmc.NF):
        return 1, 0
    if len(patterns) != lmc.NF[config]:
        return 3, 0
    if room != lmc.NB[config] or peak_room != lmc.NB[config]:
        return 5, 0
    failing = [place for place, pattern in enumerate(patterns) if pattern & 0x7FFFFFFF > LIMIT]
    return (6, failing[0]) if failing else (0, 0)


def untouched(room):
    """An area of so many places as it is before a call."""
    return [f'{f32.bits(k + 0.5):08x}' for k in range(room)]


def unmeasured(room, peak_room):
    """The areas of a measurement that was refused, or never made."""
    return [('energies', untouched(room)), ('peaks', [str(k + 7) for k in range(peak_room)])]


def answer(config, patterns, room, peak_room):
    """What the measurement answers."""
    number, index = refusal(config, patterns, room, peak_room)
    if number:
        return answers.Answer(12, number, index, '0', unmeasured(room, peak_room))
    lines = [value(pattern) for pattern in patterns]
    found = energies(config, lines)
    areas = [('energies', [f'{f32.bits(x):08x}' for x in found]), ('peaks', [str(place) for place in peaks(config, lines)])]
    return answers.Answer(12, 0, 0, str(int(near_nyquist(config, found))), areas)


def given(call):
    """What the bytes of a call of kind 7, 12 or 14 begin with: the configuration, and the values by their bits."""
    config, count = struct.unpack_from('<BH', call, 1)
    return config, struct.unpack_from(f'<{count}I', call, 4)


def asked(call):
    """What a call of kind 12 hands in: the configuration, the lines, and how many places the energies have and the peaks."""
    config, lines = given(call)
    return (config, lines, *struct.unpack_from('<HH', call, 4 + 4 * len(lines)))


def of_call(call):
    """What a call of kind 12 answers."""
    return answer(*asked(call))


def frame_refusal(config, count, room):
    """The number of a frame of so many samples, and lines of so many places."""
    if config >= len(lmc.NF):
        return 1
    return 3 if count != lmc.NF[config] else 4 if room != lmc.NF[config] else 0


def of_frame(config, call, lines):
    """What a call of kind 2 or 11 answers on a channel of a configuration; where its frame is taken, with these lines."""
    kind, (count,) = call[0], struct.unpack_from('<H', call, 1)
    room, *rooms = struct.unpack_from('<HHH' if kind == 2 else '<H', call, 3 + 2 * count)
    number = frame_refusal(config, count, room)
    if number:
        areas = [('lines', untouched(room)), *(unmeasured(*rooms) if rooms else [])]
        return answers.Answer(kind, number, 0, '0' if kind == 2 else '-', areas)
    if kind == 11:
        return answers.Answer(kind, 0, 0, '-', [('lines', lines)])
    measured = answer(config, [int(place.replace('nan', '7fc00000'), 16) for place in lines], *rooms)
    return measured._replace(kind=kind, areas=[('lines', lines), *measured.areas])


def energies_refusal(config, patterns):
    """The number and the index of energies by their bits, of which the loudest is asked for, or the flag."""
    if config >= len(lmc.NF):
        return 1, 0
    if len(patterns) != lmc.NB[config]:
        return 5, 0
    failing = [place for place, pattern in enumerate(patterns) if pattern >= INFINITY and pattern != MINUS_ZERO]
    return (7, failing[0]) if failing else (0, 0)


def products(config, found):
    """Each band's energy times the number of its lines, which may be infinite."""
    return [rounded(x * width) for x, width in zip(found, lmc.WIDTHS[config], strict=True)]


def loudest(config, patterns):
    """What the loudest band answers of energies by their bits: of equals the first, and none where all are zeros."""
    number, index = energies_refusal(config, patterns)
    if number or not set(patterns) - {0, MINUS_ZERO}:
        return answers.Answer(7, number, index, '-', [])
    ranked = products(config, map(value, patterns))
    greatest = max(ranked)
    return answers.Answer(7, 0, 0, str(ranked.index(greatest)), [('energy', [f'{f32.bits(greatest):08x}'])])


def loudest_of_call(call):
    """What a call of kind 7 answers."""
    return loudest(*given(call))


def walked(config, found):
    """Whether the running sum of the upper bands comes above 30.0 times the sum of the lower ones, and how many bands are read up to the first where it does: all
    where it never does, and none at 48 kHz."""
    if lmc.RATE[config] > 32000:
        return False, 0
    first = first_upper(config)
    most = rounded(30.0 * total(found[:first]))
    for band, upper in enumerate(running(found[first:]), first):
        if upper > most:
            return True, band + 1
    return False, lmc.NB[config]


def sooner(config, patterns):
    """What the flag, sooner, answers of energies by their bits."""
    number, index = energies_refusal(config, patterns)
    above, read = (False, 0) if number else walked(config, [value(pattern) for pattern in patterns])
    return answers.Answer(14, number, index, str(int(above)), [('read', [str(read)])])


def sooner_of_call(call):
    """What a call of kind 14 answers."""
    return sooner(*given(call))
