"""Writes a GeoPackage by SQLite alone: layers of points and areas, and the styles that QGIS draws them in.

The same layers give the same bytes, of one version of SQLite.
"""

import sqlite3
from collections.abc import Callable, Iterator, Sequence
from dataclasses import dataclass
from pathlib import Path
from struct import pack
from typing import Any

import pyproj

Place = tuple[float, float]
Ring = Sequence[Place]  # not closed
Area = Sequence[Sequence[Ring]]  # polygons, each an outer ring and its holes

GEOPACKAGE, VERSION = 0x47504B47, 10300
WRITTEN = "1970-01-01T00:00:00.000Z"  # no time of day, so that files can be compared
PLANE = -1  # a plane without a reference system
TABLES = """
CREATE TABLE gpkg_spatial_ref_sys (srs_name TEXT NOT NULL, srs_id INTEGER NOT NULL PRIMARY KEY,
    organization TEXT NOT NULL, organization_coordsys_id INTEGER NOT NULL, definition TEXT NOT NULL, description TEXT);
CREATE TABLE gpkg_contents (table_name TEXT NOT NULL PRIMARY KEY, data_type TEXT NOT NULL, identifier TEXT UNIQUE,
    description TEXT DEFAULT '', last_change DATETIME NOT NULL, min_x DOUBLE, min_y DOUBLE, max_x DOUBLE, max_y DOUBLE,
    srs_id INTEGER, CONSTRAINT fk_gc_r_srs_id FOREIGN KEY (srs_id) REFERENCES gpkg_spatial_ref_sys(srs_id));
CREATE TABLE gpkg_geometry_columns (table_name TEXT NOT NULL, column_name TEXT NOT NULL, geometry_type_name TEXT NOT NULL,
    srs_id INTEGER NOT NULL, z TINYINT NOT NULL, m TINYINT NOT NULL,
    CONSTRAINT pk_geom_cols PRIMARY KEY (table_name, column_name), CONSTRAINT uk_gc_table_name UNIQUE (table_name),
    CONSTRAINT fk_gc_tn FOREIGN KEY (table_name) REFERENCES gpkg_contents(table_name),
    CONSTRAINT fk_gc_srs FOREIGN KEY (srs_id) REFERENCES gpkg_spatial_ref_sys (srs_id));
CREATE TABLE layer_styles (id INTEGER PRIMARY KEY AUTOINCREMENT NOT NULL, f_table_catalog TEXT(256),
    f_table_schema TEXT(256), f_table_name TEXT(256), f_geometry_column TEXT(256), styleName TEXT(30), styleQML TEXT,
    styleSLD TEXT, useAsDefault BOOLEAN, description TEXT, owner TEXT(30), ui TEXT(30), update_time DATETIME);
"""
NO_SYSTEMS = (
    ("Undefined cartesian SRS", PLANE, "NONE", -1, "undefined", "a plane"),
    ("Undefined geographic SRS", 0, "NONE", 0, "undefined", "degrees"),
)


@dataclass(frozen=True)
class Layer:
    """A table of features: a shape and a row of values each. The styles are by name, the first one is the default."""

    name: str
    description: str
    columns: dict[str, str]  # their types in SQL
    shapes: Sequence[Place] | Sequence[Area]
    rows: Sequence[tuple[Any, ...]]
    styles: dict[str, str]
    points: bool = False


def write_package(path: Path, layers: Sequence[Layer], crs: pyproj.CRS | None) -> None:
    """Writes the layers into a new file, and closes it."""
    connection = sqlite3.connect(path)
    try:
        connection.execute(f"PRAGMA application_id = {GEOPACKAGE}")
        connection.execute(f"PRAGMA user_version = {VERSION}")
        connection.executescript(f"BEGIN; {TABLES}")
        systems = [*NO_SYSTEMS, row_of(pyproj.CRS.from_epsg(4326))]
        system = PLANE if crs is None else int(row_of(crs)[1])
        if crs is not None and system != 4326:
            systems.append(row_of(crs))
        insert(connection, "gpkg_spatial_ref_sys", systems)
        for layer in layers:
            write_layer(connection, layer, system)
        contents = ("layer_styles", "attributes", "layer_styles", "", WRITTEN, *[None] * 4, 0)
        insert(connection, "gpkg_contents", [contents])
        connection.commit()
    finally:
        connection.close()


def row_of(crs: pyproj.CRS) -> tuple[str, int, str, int, str, str]:
    """A reference system as GeoPackage has it: by its authority's number, or by one of our own."""
    authority = crs.to_authority()
    name, number = authority if authority and authority[1].isdigit() else ("siting", "100000")
    return crs.name, int(number), name, int(number), crs.to_wkt("WKT1_GDAL"), ""


def insert(connection: sqlite3.Connection, table: str, rows: Sequence[tuple[Any, ...]]) -> None:
    if rows:
        connection.executemany(f"INSERT INTO {table} VALUES ({', '.join('?' * len(rows[0]))})", rows)


def write_layer(connection: sqlite3.Connection, layer: Layer, system: int) -> None:
    """A layer's table, its entries in the package's lists, and its styles."""
    columns = "".join(f', "{name}" {kind}' for name, kind in layer.columns.items())
    kind = "POINT" if layer.points else "MULTIPOLYGON"
    connection.execute(
        f'CREATE TABLE "{layer.name}" (fid INTEGER PRIMARY KEY AUTOINCREMENT NOT NULL, geom {kind}{columns})'
    )
    extent, description = extent_of(layer), layer.description
    entry = (layer.name, "features", layer.name, description, WRITTEN, *extent, system)
    insert(connection, "gpkg_contents", [entry])
    insert(connection, "gpkg_geometry_columns", [(layer.name, "geom", kind, system, 0, 0)])
    head = b"GP\0\1" + pack("<i", system)
    binaries: dict[bool, Callable[[Any], bytes]] = {True: point, False: area}
    shapes = map(binaries[layer.points], layer.shapes)
    rows = [(n, head + shape, *row) for n, (shape, row) in enumerate(zip(shapes, layer.rows, strict=True), 1)]
    insert(connection, f'"{layer.name}"', rows)
    styles = "f_table_catalog, f_table_schema, f_table_name, f_geometry_column, styleName, styleQML, useAsDefault"
    for number, (name, style) in enumerate(layer.styles.items()):
        row = ("", "", layer.name, "geom", name, style, number == 0)
        insert(connection, f"layer_styles ({styles})", [row])
    connection.execute("UPDATE layer_styles SET update_time = ?", (WRITTEN,))


def extent_of(layer: Layer) -> tuple[float | None, ...]:
    """The box of all shapes."""
    places = list(layer.shapes if layer.points else vertices(layer.shapes))  # type: ignore[arg-type]
    if not places:
        return (None,) * 4
    xs, ys = zip(*places)
    return min(xs), min(ys), max(xs), max(ys)


def vertices(areas: Sequence[Area]) -> Iterator[Place]:
    return (place for polygons in areas for rings in polygons for ring in rings for place in ring)


def point(place: Place) -> bytes:
    """Well-known binary of a point."""
    return b"\1" + pack("<I2d", 1, *place)


def area(polygons: Area) -> bytes:
    """Well-known binary of polygons."""
    parts = [b"\1" + pack("<2I", 6, len(polygons))]
    for rings in polygons:
        parts.append(b"\1" + pack("<2I", 3, len(rings)))
        for ring in rings:
            values = [value for place in (*ring, ring[0]) for value in place]
            parts.append(pack(f"<I{len(values)}d", len(ring) + 1, *values))
    return b"".join(parts)
