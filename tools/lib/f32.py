"""Numbers of 32 bits: their bits, their values, and what is rounded to them."""
import math
import struct
from fractions import Fraction

ZERO, MINUS_ZERO = 0x00000000, 0x80000000
NAN, INFINITY, MINUS_INFINITY = 0x7FC00000, 0x7F800000, 0xFF800000
GREATEST = 0x7F7FFFFF  # the greatest number that is finite


def bits(number):
    """The bits of a float, rounded to f32."""
    return struct.unpack('<I', struct.pack('<f', number))[0]


def value(pattern):
    """The f32 of a bit pattern."""
    return struct.unpack('<f', struct.pack('<I', pattern))[0]


def values(words):
    """The f32 of bit patterns in eight hexadecimal digits each."""
    return struct.unpack(f'>{len(words)}f', bytes.fromhex(' '.join(words)))


def rounded(x):
    """The f32 next to a number."""
    try:
        return struct.unpack('<f', struct.pack('<f', x))[0]
    except OverflowError:
        return math.copysign(math.inf, x)


def nearest(negative, number):
    """The bits of the f32 nearest to a rational that is not below zero, with a sign; a tie goes to the even one."""
    exponent = number.numerator.bit_length() - number.denominator.bit_length() if number else -126
    exponent -= number < Fraction(2) ** exponent
    exponent = min(max(exponent, -126), 127)
    found = round(number / Fraction(2) ** (exponent - 23)) + ((exponent + 126) << 23)
    return min(found, INFINITY) | (MINUS_ZERO if negative else ZERO)
