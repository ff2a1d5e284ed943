"""Areas joined, taken off one another and grown, by GEOS as GDAL has it: in doubles, so that nothing that is promised
rests on it, but for whether an area that was read is valid."""

from collections.abc import Callable, Iterable, Sequence
from typing import TypeVar

import numpy as np
from osgeo import gdal, ogr

from .geopackage import area as binary

Place = tuple[float, float]
Ring = tuple[Place, ...]  # not closed
Rings = Sequence[Sequence[Place]]  # of a polygon: the outer ring, then its holes
Made = TypeVar("Made")


class GeosFault(Exception):
    """GEOS couldn't make what was asked; the text is what it says."""


def told(make: Callable[[], Made | None]) -> tuple[Made | None, str]:
    """What is made, and what GDAL and GEOS said meanwhile at last, which they would write to standard error."""
    said = [""]
    gdal.PushErrorHandler(lambda level, number, text: said.append(text))
    try:
        return make(), said[-1]
    except RuntimeError as fault:  # where GDAL raises its errors
        return None, str(fault)
    finally:
        gdal.PopErrorHandler()


def made(make: Callable[[], ogr.Geometry | None]) -> ogr.Geometry:
    """What is made, or a fault."""
    found, said = told(make)
    if found is None:
        raise GeosFault(said or "it can't be made")
    return found


def read(binary_or_text: bytes | str) -> ogr.Geometry:
    """A geometry of well-known binary or text."""
    if isinstance(binary_or_text, str):
        return made(lambda: ogr.CreateGeometryFromWkt(binary_or_text))
    return made(lambda: ogr.CreateGeometryFromWkb(binary_or_text))


def areas(polygons: Iterable[Rings]) -> ogr.Geometry:
    """Polygons as they stand, whether or not they overlap."""
    return read(binary([list(rings) for rings in polygons]))


def box(x0: float, y0: float, x1: float, y1: float) -> ogr.Geometry:
    """An upright rectangle."""
    return areas([[[(x0, y0), (x1, y0), (x1, y1), (x0, y1)]]])


def fault_of(area: ogr.Geometry) -> str | None:
    """What is wrong with an area, in small letters, and where; None where it is valid."""
    valid, said = told(area.IsValid)
    if valid:
        return None
    fault, _, place = said.partition(" at or near point ")
    return f"{fault.lower()} at {', '.join(place.split())}" if place else fault.lower()


def joined(areas: Iterable[ogr.Geometry]) -> ogr.Geometry:
    """The union of areas."""
    whole = ogr.Geometry(ogr.wkbMultiPolygon)
    for area in areas:
        for part in parts(area):
            whole.AddGeometry(part)
    return made(whole.UnionCascaded)


def less(area: ogr.Geometry, other: ogr.Geometry) -> ogr.Geometry:
    """What an area has beside another."""
    return made(lambda: area.Difference(other))


def grown(area: ogr.Geometry, by: float, quarter: int = 16) -> ogr.Geometry:
    """What lies at most so far from an area, with so many edges round a quarter of a turn; with a length below 0, what
    lies so deep in it; with 0, the same area made valid."""
    return made(lambda: area.Buffer(by, quarter))


def parts(area: ogr.Geometry) -> list[ogr.Geometry]:
    """The polygons of an area that aren't empty; what else a difference leaves is left out."""
    if area.GetGeometryName() == "POLYGON":
        return [] if area.IsEmpty() else [area]
    return [part for at in range(area.GetGeometryCount()) for part in parts(area.GetGeometryRef(at).Clone())]


def closed_rings(polygon: ogr.Geometry) -> list[list[Place]]:
    """The outer ring of a polygon, then its holes, each with its start at the end again."""
    return [polygon.GetGeometryRef(at).GetPoints() or [] for at in range(polygon.GetGeometryCount())]


def point(x: float, y: float) -> ogr.Geometry:
    found = ogr.Geometry(ogr.wkbPoint)
    found.AddPoint_2D(x, y)
    return found


def nearest(area: ogr.Geometry, x: float, y: float) -> Place:
    """The place of an area that is nearest to (x, y)."""
    if area.Contains(point(x, y)):
        return x, y
    rings = [np.array(ring) for part in parts(area) for ring in closed_rings(part)]
    starts, ends = (np.concatenate([ring[cut] for ring in rings]) for cut in (slice(None, -1), slice(1, None)))
    ways, to = ends - starts, np.array([x, y]) - starts
    lengths = (ways**2).sum(axis=1)
    shares = np.clip((to * ways).sum(axis=1) / np.where(lengths > 0, lengths, 1), 0, 1)
    places = starts + shares[:, None] * ways
    a, b = places[((places - (x, y)) ** 2).sum(axis=1).argmin()].tolist()
    return a, b


def inner_place(polygon: ogr.Geometry) -> Place:
    """A place within a polygon."""
    found = made(polygon.PointOnSurface)
    return found.GetX(), found.GetY()
