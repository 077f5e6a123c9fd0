"""Colours for pages and pictures: hues round the OKLCH circle, neighbours apart in lightness.

Dark ink reads on each of them. Past 24 colours hues repeat, and labels tell them apart.
"""

import math

from mill_desk.problem import Problem

MOST_HUES = 24
_TONES = ((0.85, 0.085), (0.72, 0.125), (0.79, 0.11))


def hue(place: int, count: int) -> str:
    """The colour of place 0, 1, .. among so many, as #rrggbb."""
    around = max(1, min(count, MOST_HUES))
    spot = place % around
    lightness, chroma = _TONES[spot % 3]
    if place >= around:
        lightness -= 0.05
    angle = math.radians(360 * spot / around + 25)
    return from_oklab(lightness, chroma * math.cos(angle), chroma * math.sin(angle))


def from_oklab(lightness: float, a: float, b: float) -> str:
    """A colour of the OKLab space as #rrggbb."""
    long, middle, short = ((lightness + x * a + y * b) ** 3 for x, y in (
        (0.3963377774, 0.2158037573), (-0.1055613458, -0.0638541728),
        (-0.0894841775, -1.2914855480)))
    channels = (4.0767416621 * long - 3.3077115913 * middle + 0.2309699292 * short,
                -1.2684380046 * long + 2.6097574011 * middle - 0.3413193965 * short,
                -0.0041960863 * long - 0.7034186147 * middle + 1.7076147010 * short)
    return '#' + ''.join(f'{channel_byte(value):02x}' for value in channels)


def channel_byte(value: float) -> int:
    """A linear channel as a byte of sRGB."""
    value = min(1.0, max(0.0, value))
    curved = 12.92 * value if value <= 0.0031308 else 1.055 * math.pow(value, 1 / 2.4) - 0.055
    return round(255 * curved)


def shades(problem: Problem) -> dict[int, str]:
    """The shade of each colour of the problem."""
    return {colour: hue(place, len(problem.colours))
            for place, colour in enumerate(sorted(problem.colours))}
