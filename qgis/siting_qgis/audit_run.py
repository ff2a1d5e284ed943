"""Audit: tests the folder of an answer again, by what is trusted alone."""

from typing import Any

from qgis.core import (
    QgsCoordinateReferenceSystem,
    QgsFeature,
    QgsFeatureSink,
    QgsField,
    QgsFields,
    QgsProcessing,
    QgsProcessingContext,
    QgsProcessingException,
    QgsProcessingFeedback,
    QgsProcessingOutputNumber,
    QgsProcessingOutputString,
    QgsProcessingParameterFeatureSink,
    QgsProcessingParameterFile,
    QgsWkbTypes,
)
from qgis.PyQt.QtCore import QVariant

from .algorithm import SitingAlgorithm, answer_folder
from .run import Canceled, program, refusal, run

HELP = """<p>Tests an answer again, from its layers as they are now, and says the promise sentence by sentence, with \
<i>holds</i> or what doesn't hold.</p>
<p>It uses nothing of the search, only the exact tests and the program. Who audits needs to trust neither who made the \
folder nor how the site was found.</p>"""
HOLDS, FAILS = "holds: ", "fails: "


class AuditRun(SitingAlgorithm):
    """The algorithm siting:audit."""

    NAME, TITLE, HELP = "audit", "Audit", HELP
    TAGS = ("verify", "check", "certificate", "proof", "bound", "siting")

    def initAlgorithm(self, configuration: dict[str, Any] | None = None) -> None:
        folder = QgsProcessingParameterFile.Folder
        self.addParameter(QgsProcessingParameterFile("FOLDER", "Folder of an answer", folder))
        table = QgsProcessing.TypeVector
        self.addParameter(QgsProcessingParameterFeatureSink("SENTENCES", "Sentences", table, None, True, False))
        self.addOutput(QgsProcessingOutputString("WORD", "holds or fails"))
        self.addOutput(QgsProcessingOutputNumber("FAILED", "How many sentences fail"))

    def processAlgorithm(
        self, parameters: dict[str, Any], context: QgsProcessingContext, feedback: QgsProcessingFeedback
    ) -> dict[str, Any]:
        answer = answer_folder(self.parameterAsString(parameters, "FOLDER", context)).resolve()
        rows: list[tuple[str, str]] = []

        def tell(line: str) -> None:
            if line.startswith(HOLDS):
                feedback.pushInfo(line)
                rows.append(("yes", line.removeprefix(HOLDS)))
            elif line.startswith(FAILS):
                feedback.reportError(line)
                rows.append(("no", line.removeprefix(FAILS)))

        try:
            ended = run(["audit", str(answer), "--bsss", program()], answer, feedback, tell)
        except Canceled:
            return {}
        if not rows:
            raise QgsProcessingException(refusal(ended))
        failed = sum(holds == "no" for holds, _ in rows)
        if (ended.status == 0) != (failed == 0):
            raise QgsProcessingException(refusal(ended))
        feedback.pushInfo("holds" if not failed else f"{failed} sentences fail")
        found = {"WORD": "fails" if failed else "holds", "FAILED": failed}
        return found | self.write(parameters, context, rows)

    def write(
        self, parameters: dict[str, Any], context: QgsProcessingContext, rows: list[tuple[str, str]]
    ) -> dict[str, Any]:
        """The sentences as a table, where that is asked for."""
        fields = QgsFields()
        for name in ("holds", "sentence"):
            fields.append(QgsField(name, QVariant.String))
        sink, place = self.parameterAsSink(
            parameters, "SENTENCES", context, fields, QgsWkbTypes.NoGeometry, QgsCoordinateReferenceSystem()
        )
        if sink is None:
            return {}
        for row in rows:
            feature = QgsFeature(fields)
            feature.setAttributes(list(row))
            sink.addFeature(feature, QgsFeatureSink.FastInsert)
        return {"SENTENCES": place}
