"""The rooms of the repository: crates.txt, read."""
from lib.tool import ROOT


def lines(root):
    """Each line that names a room: the words before its colon, and what it stands on."""
    for line in (root / 'crates.txt').read_text(encoding='utf-8').split('\n'):
        room, colon, below = line.split('#')[0].partition(':')
        if colon:
            yield room.split(), below.split()


def stands(root=ROOT):
    """What each room stands on, libraries of the kit included, in the order of crates.txt."""
    return {room[0]: below for room, below in lines(root)}


def archives(root=ROOT):
    """The rooms that are static libraries, on which none can stand."""
    return {room[0] for room, _ in lines(root) if 'staticlib' in room[1:]}


def programs(root=ROOT):
    """The rooms that are programs."""
    return {room for room in stands(root) if (root / 'crates' / room / 'src' / 'main.rt').is_file()}
