"""Reads layers: points with their fields, and rings of areas, in doubles as they stand in the file; writes areas."""

import json
from collections import Counter
from collections.abc import Iterable, Iterator, Sequence
from dataclasses import dataclass
from fractions import Fraction
from math import hypot, isfinite, radians, tan
from pathlib import Path

import numpy as np
import pyproj
from osgeo import ogr

from . import geos
from .geos import Ring
from .questions import Refused
from .tables import FLAT_POINT, read_table

UNITS = {  # metres, exactly
    "metre": Fraction(1),
    "meter": Fraction(1),
    "kilometre": Fraction(1000),
    "foot": Fraction(3048, 10000),
    "US survey foot": Fraction(1200, 3937),
}
POINT = np.dtype([("order", "u1"), ("kind", "<u4"), ("x", "<f8"), ("y", "<f8")])  # as well-known binary has it
ARC = 0.5  # degrees, by which a chord in an arc's place turns at most
NOWHERE = np.array([np.nan, np.nan]).tobytes()  # how an empty point ends
MENDED = "mend it, by `Fix geometries` in QGIS or `ogr2ogr -makevalid`"


@dataclass(frozen=True)
class Points:
    """Coordinates, fields by name, why rows were left out, the reference system, and what is to be said of how they
    were read; `unit` is in metres, None where the coordinates are degrees."""

    x: list[float]
    y: list[float]
    fields: dict[str, list[object]]
    skipped: Counter[str]
    crs: pyproj.CRS | None
    unit: Fraction | None
    notes: tuple[str, ...] = ()


@dataclass(frozen=True)
class RingLayer:
    """The rings of each feature, not closed: outer ones counter-clockwise, holes clockwise. They are at most `off`
    units beside what was read, where that had arcs."""

    features: tuple[tuple[Ring, ...], ...]
    crs: pyproj.CRS | None
    unit: Fraction | None
    off: float = 0.0
    notes: tuple[str, ...] = ()

    @property
    def rings(self) -> tuple[Ring, ...]:
        """Those of all features."""
        return tuple(ring for rings in self.features for ring in rings)


# points


def read_points(source: str, fields: Sequence[str] = (), crs: str | None = None) -> Points:
    """Reads a layer of points, FILE or FILE:LAYER; rows without a place are left out, and counted."""
    table = read_table(source, fields, crs)
    shapes = [point_of(source, row, shape) for row, shape in enumerate(table.shapes, 1)]
    kept = [row for row, shape in enumerate(shapes) if shape is not None]
    places = np.frombuffer(b"".join(shapes[row] or b"" for row in kept), POINT)
    broken = np.flatnonzero(~(np.isfinite(places["x"]) & np.isfinite(places["y"])))
    if len(broken):
        raise Refused(f"{source}: feature {kept[broken[0]] + 1} has a coordinate that is no number")
    skipped = Counter({"no geometry": len(shapes) - len(kept)} if len(kept) < len(shapes) else {})
    columns = {name: [values[row] for row in kept] for name, values in table.fields.items()}
    xs, ys = places["x"].tolist(), places["y"].tolist()
    return Points(xs, ys, columns, skipped, table.crs, unit_of(table.crs), table.notes)


def point_of(source: str, row: int, shape: bytes | None) -> bytes | None:
    """A feature's point as binary without height; None where it has none."""
    if shape is None or shape.endswith(NOWHERE):
        return None
    if shape.startswith(FLAT_POINT) and len(shape) == POINT.itemsize:
        return shape
    geometry = flat(shape)
    if geometry.IsEmpty():
        return None
    if geometry.GetGeometryName() == "MULTIPOINT" and geometry.GetGeometryCount() == 1:
        geometry = geometry.GetGeometryRef(0).Clone()
    if geometry.GetGeometryName() != "POINT":
        raise Refused(f"{source}: feature {row} is a {geometry.GetGeometryName()}, and towns are points")
    return bytes(geometry.ExportToWkb(ogr.wkbNDR))


def flat(shape: bytes) -> ogr.Geometry:
    """A geometry without heights and measures."""
    geometry = geos.read(shape)
    geometry.FlattenTo2D()
    return geometry


# areas


def read_rings(source: str, crs: str | None = None) -> RingLayer:
    """Reads a layer of areas; one that is invalid is refused, with the place of its fault."""
    table = read_table(source, (), crs)
    features = tuple(tuple(rings_of(source, row, shape)) for row, shape in enumerate(table.shapes, 1))
    if not features:
        raise Refused(f"{source} has no area")
    off = max(off_of(shape) for shape in table.shapes)
    notes = (
        (f"{Path(source).name} has arcs: they were made straight, {off:.2g} of its units beside them at most",)
        if off
        else ()
    )
    return RingLayer(features, table.crs, unit_of(table.crs), off, table.notes + notes)


def off_of(shape: bytes | None) -> float:
    """How far a feature's arcs lie beside the chords in their place, at most."""
    geometry = None if shape is None else flat(shape)
    return 0.0 if geometry is None or not geometry.HasCurveGeometry() else sagitta(geometry)


def sagitta(geometry: ogr.Geometry) -> float:
    """Of all circular arcs in a geometry, cut into chords that turn by ARC degrees at most."""
    if geometry.GetGeometryName() == "CIRCULARSTRING":
        places = geometry.GetLinearGeometry(ARC).GetPoints()
        chords = (hypot(a[0] - b[0], a[1] - b[1]) for a, b in zip(places, places[1:]))
        return max(chords, default=0.0) / 2 * tan(radians(ARC) / 4)
    parts = (geometry.GetGeometryRef(number) for number in range(geometry.GetGeometryCount()))
    return max((sagitta(part) for part in parts), default=0.0)


def rings_of(source: str, row: int, shape: bytes | None) -> Iterator[Ring]:
    """The rings of one feature that is valid."""
    feature = f"{source}: feature {row}"
    area = area_of(feature, shape)
    rings = [ring for part in geos.parts(area) for ring in geos.closed_rings(part)]
    if not all(isfinite(value) for ring in rings for place in ring for value in place):
        raise Refused(f"{feature} has a coordinate that is no number")
    fault = geos.fault_of(area)
    if fault is not None:
        raise Refused(f"{feature} is invalid, {fault}: {MENDED}")
    yield from turned(area)


def turned(area: ogr.Geometry) -> Iterator[Ring]:
    """Of each polygon the outer ring, counter-clockwise, and then its holes, clockwise."""
    for number, places in (found for part in geos.parts(area) for found in enumerate(geos.closed_rings(part))):
        once = tuple(a for a, b in zip(places, places[1:]) if a != b)
        yield once if is_counter_clockwise(once) == (number == 0) else once[::-1]


def is_counter_clockwise(ring: Ring) -> bool:
    """Whether the ring goes round its area counter-clockwise: exactly, also where that is tiny."""
    x, y = ring[0]
    near = [(a - x, b - y) for a, b in ring]
    terms = [(a[0] * b[1], a[1] * b[0]) for a, b in zip(near, near[1:] + near[:1])]
    doubled = sum(a - b for a, b in terms)
    if abs(doubled) > 1e-9 * sum(abs(a) + abs(b) for a, b in terms):
        return doubled > 0
    exact = [(Fraction(a), Fraction(b)) for a, b in ring]
    return sum(a[0] * b[1] - a[1] * b[0] for a, b in zip(exact, exact[1:] + exact[:1])) > 0


def area_of(feature: str, shape: bytes | None) -> ogr.Geometry:
    """A feature's area without heights."""
    geometry = None if shape is None else flat(shape)
    if geometry is None or geometry.IsEmpty():
        raise Refused(f"{feature} is empty: remove it")
    if geometry.HasCurveGeometry():
        geometry = geometry.GetLinearGeometry(ARC)
    if geometry.GetGeometryName() not in ("POLYGON", "MULTIPOLYGON"):
        raise Refused(f"{feature} is a {geometry.GetGeometryName()}, and areas are polygons")
    return geometry


def by_area(rings: Iterable[Ring]) -> list[list[Ring]]:
    """The rings of each area, the outer one first, of rings of which each outer one is followed by its holes."""
    areas: list[list[Ring]] = []
    for ring in rings:
        if is_counter_clockwise(ring):
            areas.append([ring])
        else:
            areas[-1].append(ring)
    return areas


def write_areas(path: Path, areas: Iterable[Sequence[Sequence[tuple[float, float]]]], crs: str | None) -> None:
    """Writes areas, each an outer ring and its holes, as GeoJSON whose numbers read back to the very doubles."""
    features = [
        {"type": "Feature", "properties": {"number": number}, "geometry": {"type": "Polygon", "coordinates": closed}}
        for number, rings in enumerate(areas, 1)
        for closed in [[[*ring, ring[0]] for ring in rings]]
    ]
    layer: dict[str, object] = {"type": "FeatureCollection", "features": features}
    if crs is not None:
        layer["crs"] = {"type": "name", "properties": {"name": f"urn:ogc:def:crs:{crs.replace(':', '::')}"}}
    path.write_text(json.dumps(layer) + "\n")


def unit_of(crs: pyproj.CRS | None) -> Fraction | None:
    """Metres in a unit of the plane, exactly; None for degrees; metres where no system is said."""
    if crs is None:
        return Fraction(1)
    if crs.is_geographic:
        return None
    axis = crs.axis_info[0]
    return UNITS.get(axis.unit_name) or Fraction(str(axis.unit_conversion_factor))
