"""The layers' own plane, where they are in a grid: all tiles are solved in it."""

from fractions import Fraction
from functools import cached_property

from .exact.charges import to_grid
from .exact.cost import cost
from .exact.frame import Frame
from .exact.ground import Ground
from .exact.plane import Box
from .problem import Made, Place, Problem, Spot, box_of, doubles_of, spot_of
from .proposals.outer import Regions, prepared
from .proposals.sites import Landscape


class Grid:
    """One plane for all tiles, and the planes of the problem at once; shared units are its fine units."""

    ground: Ground | None = None
    made: Made = None

    def __init__(self, problem: Problem, frame: Frame):
        self.problem, self.frame = problem, frame
        self.unit = Fraction(2) ** -frame.fine_bits
        self.origin = frame.x << frame.shift, frame.y << frame.shift
        self.region, self.forbidden = (
            tuple(tuple(frame.fine(*place) for place in ring) for ring in rings)
            for rings in (problem.region, problem.forbidden)
        )
        self.towns = to_grid(frame, problem.towns)
        self.landscape = Landscape(problem.question.kind, problem.towns)
        self.whole = box_of(self.region)

    @cached_property
    def prepared(self) -> Regions:
        return prepared(self.region, self.forbidden)

    def about(self, box: Box, site: Place | None) -> "Grid":
        return self

    def again(self, made: Made, box: Box) -> "Grid":
        if made is not None:
            raise ValueError("a tile of a grid has a plane of its own")
        return self

    def doubles(self, box: Box) -> list[float]:
        return doubles_of(box, self.origin, self.unit)

    def spot(self, x: float, y: float) -> Spot:
        return self.region, self.forbidden, *spot_of((x, y), self.origin, self.unit)

    def cost(self, x: float, y: float) -> tuple[Fraction, Fraction]:
        return cost(self.problem.question.kind, self.problem.towns, x, y)

    def metres(self, y: float) -> tuple[float, float]:
        return float(self.problem.unit), float(self.problem.unit)

    def square_metres(self, low: Fraction, high: Fraction, width: Fraction) -> Fraction:
        return (high - low) * width * self.problem.unit**2

    def regions(self) -> Regions:
        return self.prepared

    def box(self, box: Box) -> Box:
        return box

    def shared(self, box: Box) -> Box:
        return box

    def place(self, x: float | Fraction, y: float | Fraction) -> Place:
        return float(x), float(y)

    def here(self, x: float, y: float) -> Place:
        return x, y
