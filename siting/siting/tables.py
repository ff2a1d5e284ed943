"""Reads files to tables: geometries as well-known binary, the fields asked for, and the reference system."""

import csv
from collections.abc import Iterable, Sequence
from dataclasses import dataclass
from pathlib import Path
from struct import pack

import pyproj
from osgeo import gdal, ogr
from pyproj.exceptions import CRSError

from . import geos
from .geos import GeosFault
from .questions import Refused

gdal.UseExceptions()

COLUMNS = (("x", "y"), ("easting", "northing"), ("lon", "lat"), ("longitude", "latitude"), ("lng", "lat"))
DEGREES = COLUMNS[2:]
TEXTS = ("wkt", "geometry", "geom")
SEPARATORS = ",;\t"
UTF8, LATIN = "utf-8-sig", "latin-1"
FLAT_POINT = b"\x01\x01\x00\x00\x00"  # how a point without height begins

Shapes = Sequence[bytes | None]  # well-known binary


@dataclass(frozen=True)
class Table:
    """A layer by its columns: geometries, the fields asked for, the reference system, and what is to be said of how it
    was read."""

    shapes: Shapes
    fields: dict[str, list[object]]
    crs: pyproj.CRS | None
    notes: tuple[str, ...] = ()


def read_table(source: str, fields: Sequence[str], crs: str | None) -> Table:
    """Reads a layer of a file."""
    name, layer = file_of(source)
    if not Path(name).exists():
        raise Refused(f"{name} isn't there")
    named = None if crs is None else system(crs)
    if name.lower().endswith((".csv", ".txt")):
        return read_csv(name, fields, named)
    try:
        return read_ogr(name, layer, fields, named)
    except RuntimeError as fault:
        raise Refused(f"{source} can't be read: {fault}") from fault


def file_of(source: str) -> tuple[str, str]:
    """The file and the layer of FILE:LAYER; of FILE no layer."""
    if Path(source).exists() or ":" not in source:
        return source, ""
    name, _, layer = source.rpartition(":")
    return name, layer


def system(text: str) -> pyproj.CRS:
    """A reference system by its name."""
    try:
        return pyproj.CRS.from_user_input(text)
    except CRSError as fault:
        raise Refused(f"{text} is no reference system") from fault


def read_ogr(name: str, wanted: str, fields: Sequence[str], crs: pyproj.CRS | None) -> Table:
    """Reads a GeoPackage, a Shapefile, a GeoJSON, or what else OGR reads."""
    source = ogr.Open(name)  # the layer is its part, and lives no longer
    layer = layer_of(source, name, wanted)
    there = [field.GetName() for field in layer.schema]
    check_fields(name, there, fields)
    if layer.TestCapability(ogr.OLCIgnoreFields):
        layer.SetIgnoredFields([field for field in there if field not in fields])
    place = layer.GetGeometryColumn() or "wkb_geometry"
    shapes: list[bytes | None] = []
    values: dict[str, list[object]] = {field: [] for field in fields}
    for batch in layer.GetArrowStreamAsNumPy():  # with numbers of features: a lone column arrives empty
        if place not in batch:
            raise Refused(f"{name} has no geometry")
        shapes += batch[place].tolist()
        for field in fields:
            values[field] += [text_of(value) for value in batch[field].tolist()]
    said = layer.GetSpatialRef()
    unsaid = said is None or said.GetName().startswith("Undefined")
    return Table(shapes, values, crs if unsaid else known(said.ExportToWkt(["FORMAT=WKT2_2019"])))


def text_of(value: object) -> object:
    """Text as such, which columns have in bytes; other values as they are."""
    return value.decode(errors="replace") if isinstance(value, bytes) else value


def layer_of(source: ogr.DataSource, name: str, wanted: str) -> ogr.Layer:
    """The layer that is wanted, or the only one."""
    names = [source.GetLayer(number).GetName() for number in range(source.GetLayerCount())]
    if not names:
        raise Refused(f"{name} has no layers")
    if not wanted and len(names) > 1:
        raise Refused(f"{name} has several layers: say which, as {name}:{names[0]}, of {', '.join(names)}")
    if wanted and wanted not in names:
        raise Refused(f"{name} has no layer {wanted}; it has {', '.join(names)}")
    return source.GetLayerByName(wanted or names[0])


def check_fields(name: str, there: Sequence[str], wanted: Iterable[str]) -> None:
    """Refuses a field that isn't there, or that stands there twice."""
    for field in wanted:
        if there.count(field) != 1:
            several = "several fields" if field in there else "no field"
            raise Refused(f"{name} has {several} {field}; it has {', '.join(there)}")


def known(text: str) -> pyproj.CRS:
    """A reference system by its text, or the registered one that it is, so that they compare equal."""
    crs = pyproj.CRS.from_wkt(text)
    authority = crs.to_authority(min_confidence=90)
    return pyproj.CRS.from_authority(*authority) if authority else crs


def read_csv(name: str, fields: Sequence[str], crs: pyproj.CRS | None) -> Table:
    """Reads a table with a head, with columns x and y, easting and northing, lon and lat, or wkt."""
    head, lines, rows = csv_rows(name)
    check_fields(name, head, fields)
    lower = [column.strip().lower() for column in head]
    two = next((pair for pair in COLUMNS if set(pair) <= set(lower)), None)
    columns = two or next(((text,) for text in TEXTS if text in lower), None)
    if columns is None:
        raise Refused(f"{name} has no columns x and y, easting and northing, lon and lat, or wkt")
    if two in DEGREES and crs is None:
        crs = system("EPSG:4326")
    at = [lower.index(column) for column in columns]
    shapes = [csv_shape(name, line, [row[n].strip() for n in at]) for line, row in zip(lines, rows)]
    notes = () if encoding_of(name) == UTF8 else (f"{Path(name).name} isn't UTF-8: it was read as Latin-1",)
    return Table(shapes, {f: [row[head.index(f)] or None for row in rows] for f in fields}, crs, notes)


def encoding_of(name: str) -> str:
    """UTF-8, with or without a mark at its beginning; Latin-1 where a table isn't."""
    try:
        Path(name).read_bytes().decode(UTF8)
    except UnicodeDecodeError:
        return LATIN
    return UTF8


def csv_rows(name: str) -> tuple[list[str], list[int], list[list[str]]]:
    """The head of a table, the lines that its rows end at, and the rows, none of them blank."""
    try:
        with open(name, newline="", encoding=encoding_of(name)) as file:
            first = file.readline()
            file.seek(0)
            reader = csv.reader(file, delimiter=max(SEPARATORS, key=first.count))
            numbered = [(reader.line_num, row) for row in reader if row]
    except csv.Error as fault:
        raise Refused(f"{name} can't be read: {fault}") from fault
    (_, head), *rest = numbered or [(1, [])]
    for line, row in rest:
        if len(row) != len(head):
            raise Refused(f"{name}: line {line} has {len(row)} columns, and the head has {len(head)}")
    return head, [line for line, _ in rest], [row for _, row in rest]


def csv_shape(name: str, line: int, texts: Sequence[str]) -> bytes | None:
    """The geometry of a row, by its x and y or its text; None where they are empty."""
    if not all(texts):
        return None
    try:
        if len(texts) == 2:
            return FLAT_POINT + pack("<dd", float(texts[0]), float(texts[1]))
        return bytes(geos.read(texts[0]).ExportToWkb())
    except (ValueError, GeosFault) as fault:
        raise Refused(f"{name}: line {line} has no place: {fault}") from fault
