"""The planes that tiles are solved in: the layers' own grid, or one about a middle in degrees for each tile."""

from fractions import Fraction
from typing import Protocol

from .exact.frame import Frame, Town
from .exact.ground import Ground
from .exact.plane import Box, Rings
from .grid import Grid
from .grounds import Grounds
from .problem import Made, Place, Problem, Spot, choose_frame
from .proposals.outer import Regions
from .proposals.sites import Landscape


class Plane(Protocol):
    """Where a tile is solved. Boxes of tiles are in whole units that all planes share; `box` and `shared` bring them
    to a plane's fine units and back, the latter to a box that holds it."""

    frame: Frame
    region: Rings
    forbidden: Rings
    towns: list[Town]
    landscape: Landscape  # in the plane's units
    ground: Ground | None
    made: Made

    def regions(self) -> Regions:
        """What the pieces of all tiles have in common."""

    def box(self, box: Box) -> Box:
        """A tile's box in fine units from the plane's origin."""

    def shared(self, box: Box) -> Box:
        """A box that holds this one of fine units."""

    def place(self, x: float | Fraction, y: float | Fraction) -> Place:
        """The layers' coordinates of a place in the plane."""

    def here(self, x: float, y: float) -> Place:
        """The plane's coordinates of a place of the layers."""


class Planes(Protocol):
    """The planes of a problem, and the frame that they have in common. A shared unit is so much of the layers'
    coordinates, and the place (0, 0) lies `origin` shared units from theirs."""

    frame: Frame
    unit: Fraction
    origin: tuple[int, int]
    whole: Box  # of the region
    landscape: Landscape  # over the layers' coordinates

    def about(self, box: Box, site: Place | None) -> Plane:
        """The plane of a tile."""

    def again(self, made: Made, box: Box) -> Plane:
        """The plane of an earlier run; ValueError where it can't be one."""

    def doubles(self, box: Box) -> list[float]:
        """A box of shared units in the layers' coordinates."""

    def spot(self, x: float, y: float) -> Spot:
        """What tells whether a place of the layers is permitted, exactly."""

    def cost(self, x: float, y: float) -> tuple[Fraction, Fraction]:
        """The cost of a place of the layers lies between these, in the problem's units times weight."""

    def metres(self, y: float) -> tuple[float, float]:
        """Of a unit of the layers' coordinates, across and up, at this height: for drawing."""

    def square_metres(self, low: Fraction, high: Fraction, width: Fraction) -> Fraction:
        """The area of what lies between two heights of the layers and is so wide."""


def planes_of(problem: Problem, frame: Frame | None = None) -> Planes:
    """One grid, or a plane for each tile; with the frame of an earlier run, where it is given."""
    if problem.ground is None:
        return Grid(problem, frame or choose_frame(problem))
    return Grounds(problem, problem.ground, frame)
