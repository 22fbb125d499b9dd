#!/usr/bin/env python3
"""Writes the PNG files and the plot of this folder, with python's standard library alone.

show.py png PICTURE.pgm OUT.png [SCALE]         a picture, each sample SCALE by SCALE large
show.py difference A.pgm B.pgm OUT.png FACTOR   128 + FACTOR times what B has more than A
show.py plot PERCENTS FOUND SAMPLES OUT.svg     PERCENTS has lines PERCENT NONZERO SQUARED_ERROR, FOUND lines ERROR_A_SAMPLE PERCENT
"""
import math
import struct
import sys
import zlib


def read_pgm(path):
    """Width, height and samples of a PGM picture with a header of three lines."""
    with open(path, "rb") as file:
        magic, size, maxval = (file.readline().strip() for _ in range(3))
        samples = file.read()
    width, height = map(int, size.split())
    if (magic, maxval, len(samples)) != (b"P5", b"255", width * height):
        sys.exit(f"show.py: {path} is no such picture")
    return width, height, samples


def write_png(path, width, height, samples, scale=1):
    def chunk(kind, data):
        return struct.pack(">I", len(data)) + kind + data + struct.pack(">I", zlib.crc32(kind + data))

    rows = []
    for y in range(height):
        row = samples[y * width : (y + 1) * width]
        wide = b"".join(bytes([sample]) * scale for sample in row)
        rows += [b"\0" + wide] * scale
    header = struct.pack(">IIBBBBB", width * scale, height * scale, 8, 0, 0, 0, 0)
    with open(path, "wb") as file:
        file.write(b"\x89PNG\r\n\x1a\n" + chunk(b"IHDR", header) + chunk(b"IDAT", zlib.compress(b"".join(rows), 9)) + chunk(b"IEND", b""))


def numbers(path):
    with open(path, encoding="ascii") as file:
        return [tuple(map(int, line.split())) for line in file]


LEFT, PANEL_WIDTH, PANEL_HEIGHT, GAP, TOP = 70, 560, 190, 46, 30
BLUE, RED, INK, FAINT = "#20639b", "#b5342b", "#333333", "#dddddd"


def plot(percents, found, samples):
    """Two panels over the percent: nonzero coefficients, and squared error a sample on a logarithmic scale."""
    out = []

    def text(x, y, words, anchor="middle", colour=INK, size=12):
        out.append(f'<text x="{x:.1f}" y="{y:.1f}" text-anchor="{anchor}" fill="{colour}" font-size="{size}">{words}</text>')

    def line(x1, y1, x2, y2, colour, more=""):
        out.append(f'<line x1="{x1:.1f}" y1="{y1:.1f}" x2="{x2:.1f}" y2="{y2:.1f}" stroke="{colour}" {more}/>')

    def across(percent):
        return LEFT + PANEL_WIDTH * percent / 200

    def panel(top, title, ticks, place, curve, colour):
        text(LEFT + PANEL_WIDTH - 12, top - 10, title, "end", INK, 13)
        for value, label in ticks:
            line(LEFT, place(value), LEFT + PANEL_WIDTH, place(value), FAINT)
            text(LEFT - 8, place(value) + 4, label, "end")
        for percent in range(0, 201, 25):
            line(across(percent), top + PANEL_HEIGHT, across(percent), top + PANEL_HEIGHT + 5, INK)
            text(across(percent), top + PANEL_HEIGHT + 18, percent)
        line(LEFT, top + PANEL_HEIGHT, LEFT + PANEL_WIDTH, top + PANEL_HEIGHT, INK)
        points = " ".join(f"{across(percent):.1f},{place(value):.1f}" for percent, value in curve)
        out.append(f'<polyline points="{points}" fill="none" stroke="{colour}" stroke-width="2"/>')

    most = max(nonzero for _, nonzero, _ in percents)
    step = 10 ** math.floor(math.log10(most))
    step = step if most / step >= 4 else step / 2
    highest = step * math.ceil(most / step)
    errors = {percent: error / samples for percent, _, error in percents}
    counts = {percent: nonzero for percent, nonzero, _ in percents}
    low = math.floor(math.log(min(errors.values()), 4))
    high = math.ceil(math.log(max(errors.values()), 4))

    first, second = TOP, TOP + PANEL_HEIGHT + GAP + 14

    def count_place(value):
        return first + PANEL_HEIGHT * (1 - value / highest)

    def error_place(value):
        return second + PANEL_HEIGHT * (1 - (math.log(value, 4) - low) / (high - low))

    count_ticks = [(step * k, f"{step * k:,.0f}") for k in range(round(highest / step) + 1)]
    error_ticks = [(4.0**k, f"{4.0**k:g}") for k in range(low, high + 1)]
    panel(first, "nonzero coefficients", count_ticks, count_place, sorted(counts.items()), BLUE)
    panel(second, "squared error a sample (logarithmic)", error_ticks, error_place, sorted(errors.items()), BLUE)
    for limit, percent in found:
        if percent == 0:
            continue
        line(LEFT, error_place(limit), across(percent), error_place(limit), RED, 'stroke-dasharray="4 3"')
        line(across(percent), error_place(errors[percent]), across(percent), count_place(counts[percent]), RED, 'stroke-dasharray="4 3"')
        for y in (count_place(counts[percent]), error_place(errors[percent])):
            out.append(f'<circle cx="{across(percent):.1f}" cy="{y:.1f}" r="4" fill="{RED}"/>')
        words = f"error ≤ {limit}: {percent} percent, {counts[percent]:,}"
        if percent > 150:  # to the left of its point, above the curve
            text(across(percent), count_place(counts[percent]) - 24, words, "end", RED, 11)
        else:
            text(across(percent) + 8, count_place(counts[percent]) - 8, words, "start", RED, 11)
    bottom = second + PANEL_HEIGHT + 40
    text(LEFT + PANEL_WIDTH / 2, bottom, "percent of table K.1")
    size = f'width="{LEFT + PANEL_WIDTH + 30}" height="{bottom + 14}"'
    head = f'<svg xmlns="http://www.w3.org/2000/svg" {size} font-family="sans-serif"><rect width="100%" height="100%" fill="white"/>'
    return "\n".join([head, *out, "</svg>", ""])


def fewest(percents, limit):
    """The good percent with the fewest nonzero coefficients, the larger on equality; 0 when none is good."""
    good = [(nonzero, -percent) for percent, nonzero, error in percents if error <= limit]
    return -min(good)[1] if good else 0


def main(words):
    if words[:1] == ["png"]:
        write_png(words[2], *read_pgm(words[1]), *map(int, words[3:4]))
    elif words[:1] == ["difference"]:
        width, height, before = read_pgm(words[1])
        factor = int(words[4])
        after = read_pgm(words[2])[2]
        off = bytes(max(0, min(255, 128 + factor * (b - a))) for a, b in zip(before, after, strict=True))
        write_png(words[3], width, height, off)
    elif words[:1] == ["plot"]:
        percents, found, samples = numbers(words[1]), numbers(words[2]), int(words[3])
        for limit, percent in found:
            if percent != fewest(percents, limit * samples):
                sys.exit(f"show.py: {percent} percent is not what the curves have within {limit} a sample")
        with open(words[4], "w", encoding="utf-8") as file:
            file.write(plot(percents, found, samples))
    else:
        sys.exit(__doc__)


main(sys.argv[1:])
