"""The provider `siting`: its algorithms, and the setting that says where the program is."""

from pathlib import Path

from processing.core.ProcessingConfig import ProcessingConfig, Setting
from qgis.core import QgsProcessingProvider
from qgis.PyQt.QtGui import QIcon

from .audit_run import AuditRun
from .best_site import BestSite
from .compare_sites import CompareSites
from .run import BSSS

NAME = "Siting"
ICON = str(Path(__file__).parent / "icon.svg")


class SitingProvider(QgsProcessingProvider):
    """Best site, Compare sites, Audit."""

    def id(self) -> str:
        return "siting"

    def name(self) -> str:
        return NAME

    def icon(self) -> QIcon:
        return QIcon(ICON)

    def svgIconPath(self) -> str:
        return ICON

    def load(self) -> bool:
        ProcessingConfig.settingIcons[NAME] = self.icon()
        words = "The program bsss; where this is empty, $BSSS, or the one on the path"
        ProcessingConfig.addSetting(Setting(NAME, BSSS, words, "", valuetype=Setting.FILE))
        ProcessingConfig.readSettings()
        self.refreshAlgorithms()
        return True

    def unload(self) -> None:
        ProcessingConfig.removeSetting(BSSS)

    def loadAlgorithms(self) -> None:
        for algorithm in (BestSite, CompareSites, AuditRun):
            self.addAlgorithm(algorithm())
