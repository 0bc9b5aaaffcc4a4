"""The light and the gray of a relief that is lit from the upper left."""
from math import hypot


def light(height, x, y, contrast, dimmed):
    """The light at a point, 0 (black) to 1 (white) where it is not too strong: the slope that faces it is paler."""
    east = height(x + 0.5, y) - height(x - 0.5, y)
    south = height(x, y + 0.5) - height(x, y - 0.5)
    return (1.0 - contrast * (-east - south)) / (dimmed * hypot(1.0, hypot(east, south)))


def shade(height, x, y, contrast, dimmed):
    """The gray at a point, 0 (paper) to 255 (black)."""
    return max(0, min(255, round(255 * (1.0 - light(height, x, y, contrast, dimmed)))))
