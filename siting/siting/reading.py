"""From the words and layers of a planner to a problem in one plane."""

from collections import Counter
from collections.abc import Sequence
from dataclasses import asdict, dataclass
from fractions import Fraction
from pathlib import Path
from typing import Any

import pyproj

from .exact.cost import to_towns
from .exact.ground import Ellipsoid
from .layers import Points, Ring, RingLayer, read_points, read_rings
from .problem import Problem
from .questions import QUESTIONS, Question, Refused, length, number
from .refusals import refuse_strange_degrees, refuse_swapped, refuse_web_mercator, zone_of
from .setbacks import around, grown
from .systems import BEND, METRES, Moved, bring, bring_rings
from .tables import known


@dataclass(frozen=True)
class Asked:
    """What the words of the command say of the layers."""

    question: str
    towns: str
    weight: str | None
    reach: str | None
    name: str | None
    region: Sequence[str]
    forbid: Sequence[str]
    crs: str | None
    grow: Fraction | None  # metres
    keep_off: Fraction | None
    distance: str | None = None  # grid or ground

    def figures(self) -> dict[str, Any]:
        """The same as report.json has it, for an audit and to compare."""
        return asdict(self) | {"grow": self.grow and str(self.grow), "keep_off": self.keep_off and str(self.keep_off)}


@dataclass(frozen=True)
class Read:
    """What was asked, the problem, the reference system of its plane, the towns that were read and left out, each
    forbidden layer's rings by feature, the forbidden areas that were made, by name, the layers that were brought to
    that system, and what else is to be said of how they were read."""

    asked: Asked
    problem: Problem
    crs: pyproj.CRS | None
    read: int
    left_out: Counter[str]
    forbidden: list[list[list[Ring]]]
    made: dict[str, list[Ring]]
    moved: list[Moved]
    notes: list[str]


@dataclass(frozen=True)
class System:
    """The reference system that all layers are brought to, metres in its unit, and the ellipsoid where distances are
    on the ground."""

    crs: pyproj.CRS | None
    unit: Fraction
    shape: Ellipsoid | None


@dataclass(frozen=True)
class Area:
    """A layer's rings by feature, as they are in the system, and how far they may be off, in metres."""

    features: list[list[Ring]]
    off: Fraction

    @property
    def rings(self) -> list[Ring]:
        """Those of all features."""
        return [ring for rings in self.features for ring in rings]


def read_problem(asked: Asked) -> Read:
    """Reads the layers."""
    question = QUESTIONS[asked.question]
    layers = [read_rings(source, asked.crs) for source in (*asked.region, *asked.forbid)]
    first, moved = layers[0], list[Moved]()
    system = system_of(asked, first)
    notes = [note for layer in layers for note in layer.notes]
    areas = [brought(source, layer, system, moved) for source, layer in zip([*asked.region, *asked.forbid], layers)]
    regions, forbids = areas[: len(asked.region)], areas[len(asked.region) :]
    rows = read_rows(asked, question, first, system, moved, notes)
    towns = to_towns(rows.places, rows.weights, rows.cutoffs)
    region = [ring for area in regions for ring in area.rings]
    forbidden = [ring for area in forbids for ring in area.rings]
    unit = system.unit
    made: dict[str, list[Ring]] = {}
    if asked.grow:
        forbidden = made["grown"] = grown(forbidden, float(asked.grow), float(unit))
    if asked.keep_off:
        made["kept-off"] = around(rows.all_places, float(asked.keep_off), float(unit), region)
        forbidden = forbidden + made["kept-off"]
    sizes = [abs(weight) for weight in rows.weights]
    size = (sum(sizes, Fraction(0)) if question.kind == "sum" else max(sizes)) / unit
    offs = size * rows.accuracy, size * max(area.off for area in areas)
    problem = Problem(question, towns, rows.names, region, forbidden, unit, system.shape, *offs)
    return Read(
        asked, problem, system.crs, rows.read, rows.left_out, [area.features for area in forbids], made, moved, notes
    )


def brought(source: str, layer: RingLayer, system: System, moved: list[Moved]) -> Area:
    """A layer's rings in the system: as read, or by PROJ where theirs is another."""
    arcs = Fraction(layer.off) * (layer.unit or Fraction(METRES))
    features = [list(rings) for rings in layer.features]
    if layer.crs != system.crs:
        if layer.crs is None or system.crs is None:
            raise Refused(f"{source} says no reference system, or is the only one that does: say it by --crs")
        features, how = bring_rings(source, layer.features, layer.crs, system.crs)
        moved.append(how)
        arcs += Fraction(str(how.accuracy or 0)) + 2 * Fraction(str(BEND))
    area = Area(features, arcs)
    if system.shape is not None:
        refuse_strange_degrees(source, area.rings)
    return area


def system_of(asked: Asked, layer: RingLayer) -> System:
    """The region's own system, or the degrees that it is made of, where distances on the ground are wanted of a grid."""
    source, crs = asked.region[0], layer.crs
    if layer.unit is not None and asked.distance != "ground":
        refuse_web_mercator(source, layer)
        return System(crs, layer.unit, None)
    if crs is None:
        raise Refused(f"{source} says no reference system, which distances on the ground want: say it by --crs")
    degrees = crs if layer.unit is None else crs.geodetic_crs
    if degrees is None or degrees.ellipsoid is None or degrees.axis_info[0].unit_name != "degree":
        raise Refused(f"{source} isn't in degrees, nor in a grid that is made of them: bring it to EPSG:4326")
    if asked.distance == "grid":
        refuse_strange_degrees(source, layer.rings)
        grid = zone_of(*layer.rings[0][0])
        raise Refused(
            f"{source} is in degrees, which aren't lengths: take --distance ground, or bring it to a metric grid, "
            f"{grid}, say"
        )
    if asked.grow or asked.keep_off:
        raise Refused(f"{source} is in degrees, or distances on the ground: --grow and --keep-off want a metric grid")
    flat = degrees.ellipsoid.inverse_flattening
    return System(
        known(degrees.to_wkt()), Fraction(1), Ellipsoid(degrees.ellipsoid.semi_major_metre, 1 / flat if flat else 0.0)
    )


@dataclass
class Rows:
    """All towns' places in the region's plane, and the towns that count; weights have the question's sign."""

    all_places: list[tuple[float, float]]
    places: list[tuple[float, float]]
    weights: list[Fraction]
    cutoffs: list[Fraction | None]
    names: list[str]
    read: int
    left_out: Counter[str]
    accuracy: Fraction  # metres, of the operation that brought them to the region's plane


def read_rows(
    asked: Asked, question: Question, layer: RingLayer, system: System, moved: list[Moved], notes: list[str]
) -> Rows:
    """Reads the towns: their weights, reaches and names, and their places in the system; `layer` is the region's."""
    reach = length(asked.reach) if asked.reach else None
    by_field = asked.reach if asked.reach and reach is None else None
    fields = [name for name in (asked.weight, by_field, asked.name) if name]
    points = read_points(asked.towns, fields, asked.crs)
    notes += points.notes
    xs, ys, accuracy = in_plane(asked, points, layer, system, moved, notes)
    read = len(xs) + sum(points.skipped.values())
    rows = Rows(list(zip(xs, ys)), [], [], [], [], read, Counter(points.skipped), accuracy)
    for at, place in enumerate(rows.all_places):
        weight = weight_of(asked, question, points, at)
        if weight is None or weight == 0:
            rows.left_out["no weight" if weight is None else "weight 0"] += 1
            continue
        end = reach if by_field is None else number(points.fields[by_field][at])
        if by_field is not None and (end is None or end < 0):
            raise Refused(f"row {at + 1} of {asked.towns} has no reach in {by_field}")
        name = points.fields[asked.name][at] if asked.name else f"row {at + 1}"
        rows.places.append(place)
        rows.weights.append(weight)
        rows.cutoffs.append(None if end is None else end / system.unit)
        rows.names.append(str(name))
    if not rows.places:
        raise Refused(f"{asked.towns} has no town with a weight")
    return rows


def weight_of(asked: Asked, question: Question, points: Points, at: int) -> Fraction | None:
    """The signed weight of a row, or None where it has none."""
    weight = number(points.fields[asked.weight][at]) if asked.weight else Fraction(1)
    if weight is not None and question.sign and weight < 0:
        raise Refused(
            f"row {at + 1} of {asked.towns} has the weight {weight}: `{question.word}` wants none below 0; "
            "`mixed` takes both signs"
        )
    return None if weight is None else weight * (question.sign or 1)


def in_plane(
    asked: Asked, points: Points, layer: RingLayer, system: System, moved: list[Moved], notes: list[str]
) -> tuple[list[float], list[float], Fraction]:
    """The towns' coordinates in the system, as read, or by PROJ where theirs is another; and how accurate that is, in
    metres, 0 where it isn't known."""
    crs = points.crs
    if crs is None and layer.crs is not None:
        crs = layer.crs
        names = Path(asked.towns).name, Path(asked.region[0]).name
        notes.append(f"{names[0]} says no reference system: it was taken to be in that of {names[1]}")
    if layer.crs is None and crs is not None:
        raise Refused(f"{asked.region[0]} says no reference system, and {asked.towns} does: say it by --crs")
    refuse_swapped(asked.towns, points, layer)
    if crs is None or system.crs is None or crs == system.crs:
        return points.x, points.y, Fraction(0)
    xs, ys, how = bring(asked.towns, points.x, points.y, crs, system.crs)
    moved.append(how)
    return xs, ys, Fraction(str(how.accuracy or 0))
