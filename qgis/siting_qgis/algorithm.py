"""What the algorithms have in common."""

from pathlib import Path

from qgis.core import QgsProcessingAlgorithm, QgsProcessingException
from qgis.PyQt.QtGui import QIcon

ICON = str(Path(__file__).parent / "icon.svg")
GROUP = "Siting"


class SitingAlgorithm(QgsProcessingAlgorithm):
    """An algorithm of the group Siting; it names itself by `NAME`, `TITLE`, `TAGS` and `HELP`."""

    NAME = TITLE = HELP = ""
    TAGS: tuple[str, ...] = ()

    def name(self) -> str:
        return self.NAME

    def displayName(self) -> str:
        return self.TITLE

    def group(self) -> str:
        return GROUP

    def groupId(self) -> str:
        return GROUP.lower()

    def tags(self) -> list[str]:
        return list(self.TAGS)

    def shortHelpString(self) -> str:
        return self.HELP

    def icon(self) -> QIcon:
        return QIcon(ICON)

    def svgIconPath(self) -> str:
        return ICON

    def createInstance(self) -> "SitingAlgorithm":
        return type(self)()


def answer_folder(text: str) -> Path:
    """The folder of an answer: the one that is named, or `answer` in it."""
    for folder in (Path(text), Path(text) / "answer"):
        if text and (folder / "report.json").is_file():
            return folder
    raise QgsProcessingException(f"{text or 'Nothing'} is no folder of an answer: take one that Best site has written")
