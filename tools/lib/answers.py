"""The text that both sides print for a log of calls, read and compared. Lines come one after another, so a long night fits in little memory."""
import itertools
import re
from collections import Counter, namedtuple

from lib import lmc

Answer = namedtuple('Answer', 'kind number index extra areas')
Difference = namedtuple('Difference', 'call area place ours rust apart')
HEAD = re.compile(r'(\d+) (\d+) (\d+) (\d+) (\S+)')
LAST = re.compile(r'(end|stopped|refused) (\d+)')
EXTRAS = {2: 'flag', 7: 'band', 12: 'flag', 14: 'answer'}
NONE = '-'


class Unreadable(Exception):
    """A text that no side should have printed."""


class Stopped(Exception):
    """A log that its reader could not read to the end: the text's last line says so."""


def why_stopped(word, number):
    """What the last line of a text says of its log."""
    if word == 'stopped':
        return f'call {number} is cut, of an unknown kind or too long'
    return {8: 'shorter than 5 bytes', 9: 'neither the mark LMC nor LMF', 10: f'not version {lmc.VERSION}'}.get(number, f'refused {number}')


def area_of(line):
    """An area's name and places. The channels' lines have their configuration as the place before the first."""
    name, *places = line.split()
    return name, places


def answers(lines):
    """The answers one by one, up to the line `end N`."""
    head, areas, count = None, [], 0
    for line in lines:
        line = line.rstrip('\n')
        last, match = LAST.fullmatch(line), HEAD.fullmatch(line)
        if (last or match) and head is not None:
            yield Answer(*head, areas)
        if last:
            word, number = last.group(1), int(last.group(2))
            if word != 'end':
                raise Stopped(why_stopped(word, number))
            if number != count:
                raise Unreadable(f'`{line}` after {count} calls')
            return
        if match:
            if int(match.group(1)) != count:
                raise Unreadable(f'call {match.group(1)} where {count} was due')
            head, areas, count = [*map(int, match.groups()[1:4]), match.group(5)], [], count + 1
        elif head is None or not line:
            raise Unreadable(f'a line that is no answer: {line[:60]!r}')
        else:
            areas.append(area_of(line))
    raise Unreadable('no last line')


def order(bits):
    """An f32's place among those of its sign, or None for infinity."""
    return None if bits & 0x7F800000 == 0x7F800000 else bits & 0x7FFFFFFF


def apart(ours, rust):
    """Units in the last place between two places of an area; `-` for a NaN, an infinity or unlike signs. Whole numbers: their difference."""
    if re.fullmatch('[0-9a-f]{8}', ours) and re.fullmatch('[0-9a-f]{8}', rust):
        x, y = int(ours, 16), int(rust, 16)
        if x >> 31 != y >> 31 or order(x) is None or order(y) is None:
            return NONE
        return str(abs(x - y))
    if re.fullmatch('-?[0-9]{1,5}', ours) and re.fullmatch('-?[0-9]{1,5}', rust):
        return str(abs(int(ours) - int(rust)))
    return NONE


def area_differences(call, ours, rust):
    """The places of one area that differ; a place that one side lacks is `-`."""
    (name, left), (other, right) = ours, rust
    if name != other:
        yield Difference(call, 'area', NONE, name, other, NONE)
        return
    first = -1 if name in ('analysis', 'synthesis') else 0
    for place, (a, b) in enumerate(itertools.zip_longest(left, right, fillvalue=NONE), first):
        if a != b:
            yield Difference(call, name, 'configuration' if place < 0 else str(place), a, b, NONE if place < 0 else apart(a, b))


def call_differences(call, ours, rust):
    """What differs in the answers to one call."""
    for name in ('kind', 'number', 'index', 'extra'):
        a, b = getattr(ours, name), getattr(rust, name)
        if a != b:
            yield Difference(call, EXTRAS.get(rust.kind, name) if name == 'extra' else name, NONE, str(a), str(b), NONE)
    for left, right in itertools.zip_longest(ours.areas, rust.areas, fillvalue=('none', [])):
        yield from area_differences(call, left, right)


def compare(ours, rust):
    """Pairs of the Rust's answer and the list of what differs, call by call. Both are iterators of answers to one log."""
    for call, (a, b) in enumerate(itertools.zip_longest(ours, rust)):
        if a is None or b is None:
            given = ['none' if side is None else 'given' for side in (a, b)]
            yield b, [Difference(call, 'answer', NONE, *given, NONE)]
        else:
            yield b, list(call_differences(call, a, b))


class Tally:
    """Counts of calls, of differing calls and places, and of each kind with each number."""

    def __init__(self):
        self.calls = self.differing = self.places = 0
        self.kinds = Counter()

    def add(self, answer, differences):
        """Counts one call."""
        self.calls += 1
        self.differing += bool(differences)
        self.places += len(differences)
        if answer is not None:
            self.kinds[answer.kind, answer.number] += 1

    def summary(self):
        """The last line of a report."""
        if not self.places:
            return f'no difference in {self.calls} calls'
        return f'{self.places} differences in {self.differing} of {self.calls} calls'
