"""Where the Rattle kit's command `rt` leaves a program."""
from lib import tool


class NoKit(Exception):
    """What of the kit's work is not there."""


def program(name):
    """A crate's program, as `rt run` or `rt ci` left it."""
    place = tool.ROOT / 'crates' / name / 'out' / name
    if not place.is_file():
        raise NoKit(f'no crates/{name}/out/{name} (`rt run` in crates/{name} makes it)')
    return place
