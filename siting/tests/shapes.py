"""Seeded regions in whole units, made by hand: rings that aren't convex, lakes, islands, forests, parcels."""

from math import cos, pi, sin
from random import Random

from siting.exact.plane import Ring, Rings


def wavy(random: Random, x: float, y: float, radius: float, count: int, rough: float = 0.2) -> Ring:
    """A counter-clockwise ring round (x, y), star-shaped, with bays."""
    waves = [(k, random.uniform(0, 2 * pi), rough / k) for k in range(2, 12)]
    ring = []
    for i in range(count):
        angle = 2 * pi * i / count
        reach = radius * (1 + sum(size * sin(k * angle + phase) for k, phase, size in waves))
        ring.append((round(x + reach * cos(angle)), round(y + reach * sin(angle))))
    return tuple(p for p, q in zip(ring, ring[-1:] + ring[:-1]) if p != q)


def district(seed: int, count: int, holes: int = 4, forests: int = 4) -> tuple[Rings, Rings]:
    """A region with lakes and an island in each, and forests, some of them over the border."""
    random = Random(seed)
    size = 1_000_000
    region = [wavy(random, 0, 0, size, count)]
    for i in range(holes):
        angle = 2 * pi * i / max(1, holes)
        x, y = 0.4 * size * cos(angle), 0.4 * size * sin(angle)
        region.append(wavy(random, x, y, 0.15 * size, max(8, count // 8))[::-1])
        region.append(wavy(random, x, y, 0.05 * size, 8))
    forbidden = []
    for i in range(forests):
        angle = 2 * pi * (i + 0.5) / max(1, forests)
        reach = random.choice((0.7, 1.0)) * size
        forbidden.append(wavy(random, reach * cos(angle), reach * sin(angle), 0.2 * size, max(8, count // 8)))
    return tuple(region), tuple(forbidden)


def parcels(seed: int, count: int) -> Rings:
    """A grid of quadrangles that share their borders, some of them left out."""
    random = Random(seed)
    step = 10_000
    place = {
        (i, j): (i * step + random.randint(-3000, 3000), j * step + random.randint(-3000, 3000))
        for i in range(count + 1)
        for j in range(count + 1)
    }
    return tuple(
        (place[i, j], place[i + 1, j], place[i + 1, j + 1], place[i, j + 1])
        for i in range(count)
        for j in range(count)
        if random.random() < 0.8
    )


def islands(seed: int, count: int) -> Rings:
    """Islands that don't touch."""
    random = Random(seed)
    side = int(count**0.5) + 1
    return tuple(
        wavy(random, 100_000 * (i % side), 100_000 * (i // side), random.uniform(15_000, 35_000), 24)
        for i in range(count)
    )
