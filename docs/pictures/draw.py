#!/usr/bin/env python3
"""Draws picture.pgm, 240 by 160 grey samples, to standard output: a sky that darkens upwards, a sun, two hills, a chequered house with a
striped roof, and water with waves that become finer to the right. Each sample is the mean of nine points. No other picture went into it.
"""
import math
import sys

WIDTH, HEIGHT = 240, 160


def grey(x, y):
    """The grey at a point, x to the right and y downwards."""
    if 150 <= x < 190 and 70 <= y < 104:  # the house: squares of 5
        return 235 if (int(x) // 5 + int(y) // 5) % 2 else 70
    if 50 <= y < 70 and abs(x - 170) < 1.3 * (y - 50):  # its roof: stripes of 2
        return 60 if int(y) // 2 % 2 else 120
    if y >= 125:  # the water
        period = 40 / (1 + x / 24)
        return 95 + 0.4 * (y - 125) + 28 * math.sin(2 * math.pi * (x / period + (y - 125) / 11))
    if y > 104 - 30 * math.exp(-(((x - 60) / 38) ** 2)) + 2 * math.sin(x / 3):  # the near hill, with grass
        return 60 + 12 * math.sin(1.9 * x + 0.7 * y) * math.sin(1.3 * y - 0.4 * x)
    if y > 96 - 40 * math.exp(-(((x - 130) / 60) ** 2)):  # the far hill
        return 128 + 0.3 * (y - 60)
    if math.hypot(x - 205, y - 32) < 15:  # the sun
        return 250
    glow = 40 * math.exp(-math.hypot(x - 205, y - 32) / 40)
    return min(245, 150 + 0.6 * y + glow)


def sample(x, y):
    points = [grey(x + (i + 0.5) / 3, y + (j + 0.5) / 3) for j in range(3) for i in range(3)]
    return max(0, min(255, round(sum(points) / 9)))


raster = bytes(sample(x, y) for y in range(HEIGHT) for x in range(WIDTH))
sys.stdout.buffer.write(b"P5\n%d %d\n255\n" % (WIDTH, HEIGHT) + raster)
