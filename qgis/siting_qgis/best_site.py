"""Best site: from layers to the site, what is known of it, and the folder that proves it."""

import json
import re
from collections.abc import Iterator
from contextlib import contextmanager
from fractions import Fraction
from math import inf, log, nextafter
from pathlib import Path
from shutil import rmtree
from typing import Any

from qgis.core import (
    QgsProcessing,
    QgsProcessingContext,
    QgsProcessingException,
    QgsProcessingFeedback,
    QgsProcessingOutputHtml,
    QgsProcessingOutputNumber,
    QgsProcessingOutputString,
    QgsProcessingParameterBoolean,
    QgsProcessingParameterDefinition,
    QgsProcessingParameterEnum,
    QgsProcessingParameterFeatureSink,
    QgsProcessingParameterFeatureSource,
    QgsProcessingParameterField,
    QgsProcessingParameterFolderDestination,
    QgsProcessingParameterNumber,
)

from .algorithm import SitingAlgorithm
from .asking import FORBIDDEN, Asking
from .results import write_sinks
from .run import PROGRESS, Canceled, program, refusal, run
from .siting.questions import QUESTIONS

ANSWERED = (0, 1, 4)  # statuses
ASKED = [f"{question.word}: {question.title.split(': ')[-1]}" for question in QUESTIONS.values()]
NUMBERS = ("X", "Y", "COST", "BOUND", "GAP_PERCENT")
STEPS = {"reading": 1, "searching": 5, "writing": 90}  # and how far the work is then, in per cent
GAP = re.compile(r"gap ([0-9.]+) %")
HELP = """<p>Finds the best site for one facility, in straight lines, and proves how good it is: no permitted place costs \
less than the bound. It isn't a network method: it knows no roads.</p>
<p><b>near</b>: the sum of weight times distance is least. <b>near-all</b>: the farthest town is as near as can be. \
<b>far</b>: the sum is greatest. <b>far-all</b>: the nearest town is as far as can be. <b>mixed</b>: towns with weights \
above 0 pull, those below 0 push.</p>
<p>The site may be anywhere in the region and not inside a forbidden area; it may be on their borders. Layers may be in \
several reference systems; the answer is in the region's. Where features are selected and "Selected features only" is \
ticked, only these count.</p>
<p>The answer's folder has the report, a page with a map, and all that another person needs to test it: <i>Audit</i> \
does. Name a folder to keep it.</p>
<p>Canceling drops what was found; a limit of seconds keeps it.</p>"""


class BestSite(SitingAlgorithm):
    """The algorithm siting:bestsite."""

    NAME, TITLE, HELP = "bestsite", "Best site", HELP
    TAGS = (
        "facility location",
        "location-allocation",
        "weber",
        "fermat",
        "geometric median",
        "1-median",
        "minimax",
        "maximin",
        "k-means",
        "hub",
        "depot",
        "warehouse",
        "obnoxious",
        "siting",
        "optimal",
    )

    def initAlgorithm(self, configuration: dict[str, Any] | None = None) -> None:
        add, kinds = self.addParameter, QgsProcessingParameterField
        add(QgsProcessingParameterEnum("QUESTION", "Question", ASKED, defaultValue=0))
        points, polygons = [QgsProcessing.TypeVectorPoint], [QgsProcessing.TypeVectorPolygon]
        add(QgsProcessingParameterFeatureSource("TOWNS", "Towns", points))
        words = "Weight of a town, such as its people (1 where it isn't given)"
        add(QgsProcessingParameterField("WEIGHT", words, None, "TOWNS", kinds.Numeric, optional=True))
        words = "Name of a town, for the report"
        add(QgsProcessingParameterField("NAME_FIELD", words, None, "TOWNS", kinds.Any, optional=True))
        add(QgsProcessingParameterFeatureSource("REGION", "Region: where the site may be", polygons))
        for name, words in zip(FORBIDDEN, ("Forbidden areas", "More forbidden areas", "Still more forbidden areas")):
            area = QgsProcessingParameterFeatureSource(name, words, polygons, optional=True)
            add(area if name == "FORBIDDEN" else self.later(area))
        real = QgsProcessingParameterNumber.Double
        add(QgsProcessingParameterNumber("WITHIN", "Gap to reach, in per cent of the cost", real, 0.1, False, 0))
        whole = QgsProcessingParameterNumber.Integer
        add(QgsProcessingParameterNumber("SECONDS", "Seconds at most; then the best so far", whole, 60, True, 1))
        words = "Reach of each town in metres: beyond it a distance counts as the reach"
        add(self.later(QgsProcessingParameterField("REACH_FIELD", words, None, "TOWNS", kinds.Numeric, optional=True)))
        for name, words in (
            ("REACH", "One reach for all towns, in metres"),
            ("GROW", "Forbid too what is nearer than this to a forbidden area, in metres"),
            ("KEEP_OFF", "Forbid too what is nearer than this to a town, in metres"),
        ):
            add(self.later(QgsProcessingParameterNumber(name, words, real, None, True, 0)))
        add(self.later(QgsProcessingParameterNumber("WORKERS", "Processors that work on it", whole, 1, False, 1, 64)))
        add(self.later(QgsProcessingParameterBoolean("MAPS", "Draw maps, and a page with them", True)))
        self.add_results()

    def add_results(self) -> None:
        """What is written, and the numbers for models."""
        for name, words, kind, on in (
            ("SITE", "Site", QgsProcessing.TypeVectorPoint, True),
            ("NEAR_SETS", "Near sets", QgsProcessing.TypeVectorPolygon, True),
            ("SQUARES", "Squares that the bound comes from", QgsProcessing.TypeVectorPolygon, False),
            ("PIECES", "Pieces that were tested", QgsProcessing.TypeVectorPolygon, False),
        ):
            self.addParameter(QgsProcessingParameterFeatureSink(name, words, kind, None, True, on))
        self.addParameter(QgsProcessingParameterFolderDestination("FOLDER", "Folder of the answer"))
        self.addOutput(QgsProcessingOutputHtml("PAGE", "Page with the map and the numbers"))
        said = (
            "x of the site",
            "y of the site",
            "Cost of the site, in weight times metres, rounded up",
            "Bound: no permitted place costs less",
            "At most so many per cent from the best",
        )
        for name, words in zip(NUMBERS, said):
            self.addOutput(QgsProcessingOutputNumber(name, words))
        self.addOutput(QgsProcessingOutputString("WORD", "within, wider or no site"))

    def later(self, parameter: QgsProcessingParameterDefinition) -> QgsProcessingParameterDefinition:
        """A parameter that is shown under Advanced."""
        parameter.setFlags(parameter.flags() | QgsProcessingParameterDefinition.FlagAdvanced)
        return parameter

    def processAlgorithm(
        self, parameters: dict[str, Any], context: QgsProcessingContext, feedback: QgsProcessingFeedback
    ) -> dict[str, Any]:
        bsss = program()
        asked = Asking(self, parameters, context, feedback)
        folder = Path(self.parameterAsString(parameters, "FOLDER", context))
        try:
            with made_whole(folder):
                words = [*asked.words(folder), "--progress", "--bsss", bsss]
                ended = run(words, folder, feedback, Teller(asked.within, feedback))
                if ended.status not in ANSWERED or not (folder / "answer" / "report.json").exists():
                    raise QgsProcessingException(asked.in_words(refusal(ended)))
        except Canceled:
            return {}
        return self.results(parameters, context, feedback, folder / "answer")

    def results(
        self,
        parameters: dict[str, Any],
        context: QgsProcessingContext,
        feedback: QgsProcessingFeedback,
        answer: Path,
    ) -> dict[str, Any]:
        """The layers, the files and the numbers."""
        figures = json.loads((answer / "report.json").read_text())
        for reason, count in figures["towns"]["left_out"].items():
            feedback.pushWarning(f"{count} towns were left out: {reason}")
        found: dict[str, Any] = {"FOLDER": str(answer.parent), "WORD": figures["answer"]}
        found |= {name: None for name in NUMBERS}
        site = figures["site"]
        if site is not None:
            found |= {"X": float(site["x"]), "Y": float(site["y"]), "GAP_PERCENT": figures["gap_percent"]}
            found["COST"] = -at_most(-Fraction(figures["cost"][1]))
        if figures["bound"] is not None:
            found["BOUND"] = at_most(Fraction(figures["bound"]))
        if (answer / "report.html").exists():
            found["PAGE"] = str(answer / "report.html")
        return found | write_sinks(self, parameters, context, feedback, answer, figures)


@contextmanager
def made_whole(folder: Path) -> Iterator[None]:
    """Makes the folder of the layers; where no answer comes of it, nothing is left behind."""
    if (folder / "answer").exists() or (folder / "layers").exists():
        raise QgsProcessingException(f"{folder} has an answer already: name another folder")
    first = next((parent for parent in [*reversed(folder.parents), folder] if not parent.exists()), folder / "layers")
    try:
        (folder / "layers").mkdir(parents=True)
    except OSError as fault:
        raise QgsProcessingException(f"{folder} can't be made: {fault.strerror}") from fault
    try:
        yield
    except BaseException:
        for half in folder.glob(".answer.*"):
            rmtree(half, ignore_errors=True)
        rmtree(first, ignore_errors=True)
        raise


def at_most(value: Fraction) -> float:
    """The greatest double that isn't more."""
    near = float(value)
    return near if near <= value else nextafter(near, -inf)


class Teller:
    """Tells how far the work is: the share of the way, in orders of magnitude, from the first gap to the one asked."""

    def __init__(self, within: float, feedback: QgsProcessingFeedback):
        self.within, self.feedback, self.first = max(within, 1e-6), feedback, 0.0

    def __call__(self, line: str) -> None:
        if not line.startswith(PROGRESS):
            self.feedback.pushInfo(line)
            return
        step = line.removeprefix(PROGRESS)
        self.feedback.setProgressText(step)
        if step in STEPS:
            self.feedback.setProgress(STEPS[step])
        match = GAP.search(step)
        if match is None:
            return
        gap = max(float(match[1]), self.within)
        self.first = max(self.first, gap)
        if self.first > self.within:
            share = log(self.first / gap) / log(self.first / self.within)
            self.feedback.setProgress(STEPS["searching"] + share * (STEPS["writing"] - STEPS["searching"]))
