"""Brings coordinates from one reference system to another, and says by what operation and how well."""

from collections.abc import Sequence
from dataclasses import dataclass
from math import inf
from pathlib import Path
from warnings import catch_warnings, simplefilter

import numpy as np
import numpy.typing as npt
import pyproj
from pyproj.aoi import AreaOfInterest
from pyproj.transformer import Transformer, TransformerGroup

from .layers import Ring, is_counter_clockwise
from .questions import Refused

BACK = 0.01  # metres: how near a place that is brought there and back must come to where it was
BEND = 0.05  # metres: how far the middle of an edge that is brought may lie beside the one that is straight there
METRES = 111_000.0  # in a degree, or nearly

Floats = npt.NDArray[np.float64]


@dataclass(frozen=True)
class Moved:
    """That a layer, said without its folder, was brought to another system: by what operation, how accurate that is in metres where it is
    known, and whether PROJ knows a better one that lacks a grid."""

    layer: str
    system: str
    operation: str
    accuracy: float | None
    lacking: bool

    def text(self) -> str:
        """For the report."""
        known = "of unknown accuracy" if self.accuracy is None else f"accurate to {self.accuracy:g} m"
        better = "; a better one wants a grid that isn't installed" if self.lacking else ""
        return f"{self.layer} was brought from {self.system} by `{self.operation}`, {known}{better}"


def bring(
    layer: str, xs: Sequence[float], ys: Sequence[float], crs: pyproj.CRS, target: pyproj.CRS
) -> tuple[list[float], list[float], Moved]:
    """The coordinates in the target's system; refused where one lies outside of what either can show."""
    transformer, lacking = operation(layer, xs, ys, crs, target)
    found = [np.asarray(values, dtype=np.float64) for values in transformer.transform(xs, ys)]
    row = stray(transformer, (np.asarray(xs), np.asarray(ys)), found, crs)
    if row is not None:
        raise Refused(
            f"place {row + 1} of {layer} lies outside of what {crs.name} or {target.name} can show: "
            f"is {crs.name} its system?"
        )
    accuracy = transformer.accuracy if transformer.accuracy >= 0 else None
    return (
        found[0].tolist(),
        found[1].tolist(),
        Moved(Path(layer).name, crs.name, transformer.description, accuracy, lacking),
    )


def operation(
    layer: str, xs: Sequence[float], ys: Sequence[float], crs: pyproj.CRS, target: pyproj.CRS
) -> tuple[Transformer, bool]:
    """The most accurate operation that PROJ can carry out there, and whether it knows a better one."""
    with catch_warnings():
        simplefilter("ignore")  # of grids that aren't installed: it is said in the report
        group = TransformerGroup(crs, target, always_xy=True, area_of_interest=area_of(xs, ys, crs))
    if not group.transformers:
        raise Refused(f"{layer} can't be brought to {target.name}: PROJ knows no operation")
    best = min(group.transformers, key=lambda known: known.accuracy if known.accuracy >= 0 else inf)
    return best, not group.best_available


def area_of(xs: Sequence[float], ys: Sequence[float], crs: pyproj.CRS) -> AreaOfInterest | None:
    """The box of the coordinates, in degrees; None where they have none."""
    geographic = crs.geodetic_crs
    if geographic is None or not len(xs):
        return None
    degrees = Transformer.from_crs(crs, geographic, always_xy=True).transform(xs, ys)
    (west, east), (south, north) = ((float(np.min(v)), float(np.max(v))) for v in degrees)
    inside = -180 <= west <= east <= 180 and -90 <= south <= north <= 90
    return AreaOfInterest(west, south, east, north) if inside else None


def stray(transformer: Transformer, places: Sequence[Floats], found: Sequence[Floats], crs: pyproj.CRS) -> int | None:
    """The first place that doesn't come back to where it was, or lies beyond a pole."""
    finite = np.isfinite(found[0]) & np.isfinite(found[1])
    back = transformer.transform(*(np.where(finite, values, 0.0) for values in found), direction="INVERSE")
    aside, ahead, beyond = back[0] - places[0], back[1] - places[1], np.zeros(len(places[0]), dtype=bool)
    if crs.is_geographic:
        aside, ahead = np.remainder(aside + 180, 360) * METRES - 180 * METRES, ahead * METRES
        beyond = np.abs(places[1]) > 90
    wrong = np.flatnonzero(~finite | beyond | ~(np.hypot(aside, ahead) < BACK))
    return int(wrong[0]) if len(wrong) else None


# areas


def bring_rings(
    layer: str, features: Sequence[Sequence[Ring]], crs: pyproj.CRS, target: pyproj.CRS
) -> tuple[list[list[Ring]], Moved]:
    """Each feature's rings in the target's system. Their edges are cut so finely that they bend by BEND at most there,
    in the same places for each edge that two rings share."""
    rings = [ring for feature in features for ring in feature]
    starts = np.array([place for ring in rings for place in ring])
    ends = np.array([place for ring in rings for place in (*ring[1:], ring[0])])
    parts = parts_of(layer, starts, ends, crs, target)
    cut = cuts(starts, ends, parts)
    xs, ys, how = bring(layer, cut[:, 0].tolist(), cut[:, 1].tolist(), crs, target)
    places, counts = iter(zip(xs, ys)), iter(parts.tolist())
    found = []
    for feature in features:
        found.append([tuple(next(places) for _ in range(sum(next(counts) for _ in ring))) for ring in feature])
        for old, new in zip(feature, found[-1]):
            if is_counter_clockwise(old) != is_counter_clockwise(new):
                raise Refused(f"{layer} is turned inside out in {target.name}: bring it there by hand")
    return found, how


def parts_of(layer: str, starts: Floats, ends: Floats, crs: pyproj.CRS, target: pyproj.CRS) -> npt.NDArray[np.int64]:
    """How many parts each edge wants: a bend falls by four where an edge is halved."""
    middles = (starts + ends) / 2
    a, b, m = (
        np.array(bring(layer, places[:, 0].tolist(), places[:, 1].tolist(), crs, target)[:2]).T
        for places in (starts, ends, middles)
    )
    metres = np.full((len(m), 2), METRES if target.is_geographic else target.axis_info[0].unit_conversion_factor)
    if target.is_geographic:
        metres[:, 0] *= np.cos(np.radians(m[:, 1]))
    bends = np.hypot(*((m - (a + b) / 2) * metres).T)
    return np.maximum(1, np.ceil(np.sqrt(bends / BEND))).astype(np.int64)


def cuts(starts: Floats, ends: Floats, parts: npt.NDArray[np.int64]) -> Floats:
    """The starts of all parts of the edges; of an edge and its reverse they are the same doubles."""
    at = np.arange(parts.sum()) - np.repeat(np.cumsum(parts) - parts, parts)
    turned = np.repeat(
        (starts[:, 0] > ends[:, 0]) | ((starts[:, 0] == ends[:, 0]) & (starts[:, 1] > ends[:, 1])), parts
    )
    count, first, last = np.repeat(parts, parts), np.repeat(starts, parts, axis=0), np.repeat(ends, parts, axis=0)
    low, high = np.where(turned[:, None], last, first), np.where(turned[:, None], first, last)
    share = np.where(turned, count - at, at) / count
    return np.asarray(np.where(at[:, None] == 0, first, low + (high - low) * share[:, None]), dtype=np.float64)
