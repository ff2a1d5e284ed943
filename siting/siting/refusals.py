"""What of reference systems is refused, in words that say what helps."""

from collections.abc import Sequence

import numpy as np
import numpy.typing as npt
import pyproj

from .layers import Points, Ring, RingLayer
from .questions import Refused

POLE = 85  # degrees of latitude, beyond which distances can't be bounded


def zone_of(longitude: float, latitude: float) -> str:
    """The UTM grid of a place."""
    zone = int((longitude + 180) // 6) % 60 + 1
    return f"EPSG:{326 if latitude >= 0 else 327}{zone:02}"


def refuse_web_mercator(source: str, layer: RingLayer) -> None:
    """Refuses a plane whose lengths are wrong by far, and names one to take."""
    operation = layer.crs and layer.crs.coordinate_operation
    if not operation or "Pseudo Mercator" not in operation.method_name:
        return
    to_degrees = pyproj.Transformer.from_crs(layer.crs, "EPSG:4326", always_xy=True)
    grid = zone_of(*to_degrees.transform(*layer.rings[0][0]))
    raise Refused(
        f"{source} is in web Mercator, where lengths are too long by far: bring all layers to {grid}, say, "
        "or take --distance ground"
    )


def refuse_strange_degrees(source: str, rings: Sequence[Ring]) -> None:
    """Refuses latitudes that aren't, or are too near to a pole, and areas on both sides of the antimeridian."""
    xs, ys = np.array([place for ring in rings for place in ring]).T
    if np.abs(ys).max() > 90:
        raise Refused(f"{source} has latitudes beyond 90 degrees: are its axes swapped? Longitude comes first")
    if np.abs(ys).max() > POLE:
        raise Refused(f"{source} comes nearer than 5 degrees to a pole, where distances can't be bounded")
    if np.ptp(xs) > 180:
        raise Refused(
            f"{source} spans more than 180 degrees of longitude: is it on both sides of the antimeridian? Cut it, "
            "or give longitudes from 0 to 360"
        )


def refuse_swapped(source: str, points: Points, layer: RingLayer) -> None:
    """Refuses towns most of which lie far outside the region, and inside of it once their axes are swapped."""
    places = np.array([place for ring in layer.rings for place in ring])
    low, high = places.min(axis=0), places.max(axis=0)
    if points.crs is not None and layer.crs is not None and points.crs != layer.crs:
        corners = [(a, b) for a in np.linspace(low[0], high[0], 9) for b in np.linspace(low[1], high[1], 9)]
        to_towns = pyproj.Transformer.from_crs(layer.crs, points.crs, always_xy=True)
        shown = np.array(to_towns.transform(*zip(*corners)))
        low, high = shown.min(axis=1), shown.max(axis=1)
    margin, x, y = 0.1 * (high - low), np.array(points.x), np.array(points.y)

    def inside(a: npt.NDArray[np.float64], b: npt.NDArray[np.float64]) -> float:
        near = (np.abs(a - (low + high)[0] / 2) <= (high - low)[0] / 2 + margin[0]) & (
            np.abs(b - (low + high)[1] / 2) <= (high - low)[1] / 2 + margin[1]
        )
        return float(near.mean()) if len(near) else 0.0

    if inside(y, x) > 0.5 > inside(x, y) + 0.4:
        raise Refused(f"{source} has its axes swapped: its towns are in the region once x and y change places")
    if points.unit is None and len(y) and np.abs(y).max() > 90:
        raise Refused(f"{source} has latitudes beyond 90 degrees: are its axes swapped? Longitude comes first")
