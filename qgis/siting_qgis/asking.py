"""What is asked, as words of the library's command, and the layers that it reads."""

from decimal import Decimal
from pathlib import Path
from typing import Any

from qgis.core import (
    QgsProcessingAlgorithm,
    QgsProcessingContext,
    QgsProcessingException,
    QgsProcessingFeatureSource,
    QgsProcessingFeedback,
)

from .inputs import Layer, check_field, write_layer
from .siting.questions import QUESTIONS

FORBIDDEN = ("FORBIDDEN", "FORBIDDEN_2", "FORBIDDEN_3")
FIELDS = (
    ("WEIGHT", "--weight", "the weight"),
    ("REACH_FIELD", "--reach", "the reach"),
    ("NAME_FIELD", "--name", "the name"),
)
LENGTHS = (("REACH", "--reach"), ("GROW", "--grow"), ("KEEP_OFF", "--keep-off"))


class Asking:
    """The parameters of one run."""

    def __init__(
        self,
        algorithm: QgsProcessingAlgorithm,
        parameters: dict[str, Any],
        context: QgsProcessingContext,
        feedback: QgsProcessingFeedback,
    ):
        self.algorithm, self.parameters, self.context, self.feedback = algorithm, parameters, context, feedback
        self.within: float = algorithm.parameterAsDouble(parameters, "WITHIN", context)
        self.layers: list[Layer] = []

    def words(self, folder: Path) -> list[str]:
        """The words of the command; writes the layers into `layers` of the folder, which are named from it."""
        number = self.algorithm.parameterAsEnum(self.parameters, "QUESTION", self.context)
        towns = self.source("TOWNS")
        fields = {words: self.field(towns, name, words, what) for name, words, what in FIELDS if self.is_given(name)}
        words = [list(QUESTIONS)[number], "--out", "answer", "--within", plain(self.within)]
        for word, field in fields.items():
            words += [word, field.name()]
        for name, word in LENGTHS:
            value = self.algorithm.parameterAsDouble(self.parameters, name, self.context) if self.is_given(name) else 0
            if value and word in words:
                raise QgsProcessingException("There is a reach for all towns and a field of reaches: give one of them")
            words += [word, plain(value)] if value else []
        if self.is_given("SECONDS"):
            words += ["--seconds", str(self.algorithm.parameterAsInt(self.parameters, "SECONDS", self.context))]
        words += ["--workers", str(self.algorithm.parameterAsInt(self.parameters, "WORKERS", self.context))]
        words += ["--maps"] if self.draws_maps() else []
        words += ["--towns", self.write(towns, folder / "layers" / "towns.gpkg", list(fields.values()))]
        words += ["--region", self.write(self.source("REGION"), folder / "layers" / "region.gpkg", [])]
        forbidden = [name for name in FORBIDDEN if self.is_given(name)]
        files = [folder / "layers" / f"{name.lower()}.gpkg" for name in forbidden]
        written = [self.write(self.source(name), file, []) for name, file in zip(forbidden, files)]
        return words + (["--forbid", *written] if written else [])

    def draws_maps(self) -> bool:
        """Whether maps are asked for, and the region is in a grid, which they want."""
        asked = self.algorithm.parameterAsBool(self.parameters, "MAPS", self.context)
        if asked and self.source("REGION").sourceCrs().isGeographic():
            self.feedback.pushWarning("The region is in degrees, and maps want a grid: none are drawn")
            return False
        return bool(asked)

    def is_given(self, name: str) -> bool:
        """Whether a parameter has a value: its default one, where it isn't named."""
        default = self.algorithm.parameterDefinition(name).defaultValue()
        return self.parameters.get(name, default) not in (None, "")

    def source(self, name: str) -> QgsProcessingFeatureSource:
        """The features of a parameter."""
        found = self.algorithm.parameterAsSource(self.parameters, name, self.context)
        if found is None:
            raise QgsProcessingException(self.algorithm.invalidSourceError(self.parameters, name))
        return found

    def field(self, towns: QgsProcessingFeatureSource, name: str, word: str, what: str) -> Any:
        """The field that a parameter names, of numbers where these are needed."""
        field = self.algorithm.parameterAsString(self.parameters, name, self.context)
        return check_field(towns, field, word != "--name", what)

    def write(self, source: QgsProcessingFeatureSource, path: Path, fields: list[Any]) -> str:
        """Writes a layer, and gives its name from the folder."""
        self.layers.append(write_layer(source, path, fields, self.context, self.feedback))
        return f"{path.parent.name}/{path.name}"

    def in_words(self, text: str) -> str:
        """A sentence of the library, with the layers' names in QGIS."""
        for layer in self.layers:
            text = layer.in_words(text)
        return text


def plain(value: float) -> str:
    """A double as its shortest decimal, without an exponent."""
    return f"{Decimal(repr(float(value))):f}"
