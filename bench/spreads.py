"""The psfs among which bench/defaults chooses, as rows of numbers with a sum of at most 1,024."""
from functools import lru_cache
from math import cos, exp, pi, sqrt

LARGEST_SUM, LARGEST_ENTRY, STEPS = 1024, 255, 4000


def scaled(square):
    """A square of weights as whole numbers, in the largest of many scales that is allowed."""
    peak = max(map(max, square))
    for step in range(STEPS, 0, -1):
        whole = [[round(weight / peak * LARGEST_ENTRY * step / STEPS) for weight in row] for row in square]
        if sum(map(sum, whole)) <= LARGEST_SUM:
            return whole
    raise ValueError("no scale is small enough")


def gauss(sigma, radius=3):
    """A Gaussian of sigma cells, cut off past the radius."""
    offsets = range(-radius, radius + 1)
    return scaled([[exp(-(x * x + y * y) / (2 * sigma * sigma)) for x in offsets] for y in offsets])


def product(row, divisor=1):
    """The products of a row with itself."""
    return [[round(a * b / divisor) for a in row] for b in row]


def eye(scale, radius=3, size=64):
    """
    The spread whose autocorrelation is the mix of two Gaussians of document 004 (equation 19, with the constants of its
    section 4, taken as degrees), seen from so many cells away: document 002 calls distance times resolution the scale.
    """
    near, wide = 0.02 * scale * pi / 180, 0.06 * scale * pi / 180
    steps = [(i - size // 2) / size for i in range(size)]

    def answer(a, b):
        turns = 2 * pi * pi * (a * a + b * b)
        return sqrt(43.2 * near**2 * exp(-turns * near**2) + 38.7 * wide**2 * exp(-turns * wide**2))

    answers = {(a, b): answer(a, b) for a in steps for b in steps}

    def weight(x, y):
        return max(0.0, sum(height * cos(2 * pi * (a * x + b * y)) for (a, b), height in answers.items()))

    corner = {(x, y): weight(x, y) for x in range(radius + 1) for y in range(x + 1)}
    offsets = [abs(x) for x in range(-radius, radius + 1)]
    return scaled([[corner[max(x, y), min(x, y)] for x in offsets] for y in offsets])


@lru_cache
def candidates():
    """Every psf that is measured, by name."""
    psfs = {
        "point": [[1]],
        "binomial3": product([1, 2, 1]),
        "binomial5": product([1, 4, 6, 4, 1]),
        "binomial7": product([1, 6, 15, 20, 15, 6, 1], 4),
        "product 1 4 7 8": product([1, 4, 7, 8, 7, 4, 1]),
        "gauss 1.5, radius 2": gauss(1.5, 2),
    }
    for sigma in (1.0, 1.2, 1.3, 1.4, 1.5, 1.6, 1.7, 1.8, 2.0, 2.5, 3.0):
        psfs[f"gauss {sigma}"] = gauss(sigma)
    for scale in (1800, 3000, 3600, 4200, 4800, 6000):
        psfs[f"eye {scale}"] = eye(scale)
    return psfs
