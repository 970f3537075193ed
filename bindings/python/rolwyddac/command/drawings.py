"""A grid for other programs: GeoTIFF and netCDF by GDAL, a .prj file, a picture by matplotlib. Each is made whole, as bytes."""

from __future__ import annotations

import array
import importlib
import io
import os
import re
import tempfile
from typing import Any, List, Sequence, Set

from . import files
from .faults import Usage
from .points import Layout
from .texts import shown

MISSING = -9999

# words from here on are negative for readers that keep 32 bits with a sign
SIGN = 2 ** 31

_CRS = re.compile(r'EPSG:([0-9]{1,6})', re.IGNORECASE)

# GDAL's drivers and how each is asked to write
_DRIVERS = {'.tif': ('GTiff', ['COMPRESS=DEFLATE']), '.nc': ('netCDF', ['FORMAT=NC4C'])}

# a picture's longer side, and what stands beside the map
_INCHES, _BESIDE, _DPI = 8.0, 1.6, 150

# a chart that is so much longer than wide is drawn wider
_LONGEST = 20

_LAND = '#ded6c4'

# bytes of a file that GDAL writes
_FORMAT_MOST = 2 ** 28


def _needed(name: str, module: str, what: str, extra: str, package: str) -> Any:
    try:
        return importlib.import_module(name)
    except ImportError:
        raise Usage('%s needs the Python module %s, which is not installed here: the extra `%s`, or Debian\'s %s' % (
            what, module, extra, package)) from None


def _gdal(what: str) -> Any:
    gdal = _needed('osgeo.gdal', 'osgeo', what, 'gdal', 'python3-gdal')
    gdal.UseExceptions()
    return gdal


def reference(crs: str) -> Any:
    """The coordinate reference system of a name like EPSG:25832."""
    found = _CRS.fullmatch(crs)
    if not found:
        raise Usage('--crs: `%s` is not like EPSG:25832' % shown(crs))
    _gdal('--crs')
    osr = importlib.import_module('osgeo.osr')
    osr.UseExceptions()
    made = osr.SpatialReference()
    try:
        made.ImportFromEPSG(int(found[1]))
    except RuntimeError:
        raise Usage('--crs: GDAL knows no EPSG:%s' % found[1]) from None
    return made


def prj(crs: str) -> bytes:
    """The text of a .prj file, as ArcGIS and GDAL read it beside an .asc."""
    made = reference(crs)
    made.MorphToESRI()
    text: str = made.ExportToWkt()
    return (text + '\n').encode()


def is_raster(name: str) -> bool:
    """Is it GDAL's to write?"""
    return ending(name) in _DRIVERS


def ending(name: str) -> str:
    """The ending of a file's name that says what it has."""
    found = os.path.splitext(name)[1].lower()
    return '.tif' if found == '.tiff' else found


def raster(kind: str, grid: Sequence[int], outside: Set[int], layout: Layout, crs: Any) -> bytes:
    """The bytes of a GeoTIFF or netCDF file: whole numbers of 32 bits with a sign where all fit, else of 64 bits with a point, which hold all."""
    gdal = _gdal('a file %s' % kind)
    driver, options = gdal.GetDriverByName(_DRIVERS[kind][0]), _DRIVERS[kind][1]
    if driver is None:
        raise Usage('this GDAL has no driver for %s' % kind)
    values = [MISSING if cell in outside else word for cell, word in enumerate(grid)]
    fits = max(values) < SIGN
    memory = gdal.GetDriverByName('MEM').Create('', layout.columns, layout.rows, 1, gdal.GDT_Int32 if fits else gdal.GDT_Float64)
    memory.SetGeoTransform((layout.x, layout.size, 0, layout.y + layout.rows * layout.size, 0, -layout.size))
    if crs is not None:
        memory.SetProjection(crs.ExportToWkt())
    band = memory.GetRasterBand(1)
    band.SetNoDataValue(MISSING)
    band.WriteRaster(0, 0, layout.columns, layout.rows, array.array('i' if fits else 'd', values).tobytes())
    # netCDF writes to a name alone, so it gets one in a folder of its own
    with tempfile.TemporaryDirectory(prefix='rolwyddac-') as folder:
        path = os.path.join(folder, 'chart' + kind)
        try:
            made = driver.CreateCopy(path, memory, 0, options)
            made.FlushCache()
            del made
        except RuntimeError as error:
            raise Usage('GDAL can\'t write %s: %s' % (kind, shown(str(error)))) from None
        return files.read(path, _FORMAT_MOST)


def _rows(grid: Sequence[int], outside: Set[int], columns: int) -> List[List[float]]:
    values = [float('nan') if cell in outside else float(word) for cell, word in enumerate(grid)]
    return [values[at:at + columns] for at in range(0, len(values), columns)]


def picture(grid: Sequence[int], outside: Set[int], layout: Layout, title: str) -> bytes:
    """A PNG of the grid: deep is dark, cells outside the shape have the colour of land."""
    _needed('matplotlib', 'matplotlib', '--png', 'png', 'python3-matplotlib')
    figure_module = importlib.import_module('matplotlib.figure')
    backend = importlib.import_module('matplotlib.backends.backend_agg')
    wide, high = layout.columns * layout.size, layout.rows * layout.size
    scale = _INCHES / max(wide, high)
    figure = figure_module.Figure(figsize=(max(wide * scale, 2) + _BESIDE, max(high * scale, 2) + 1), dpi=_DPI)
    backend.FigureCanvasAgg(figure)
    axes = figure.add_subplot()
    # a chart of a few rows would be a thread
    aspect = 'auto' if max(wide, high) > _LONGEST * min(wide, high) else 'equal'
    image = axes.imshow(_rows(grid, outside, layout.columns), cmap='Blues', interpolation='nearest', aspect=aspect,
                        extent=(layout.x, layout.x + wide, layout.y, layout.y + high))
    axes.set_facecolor(_LAND)
    axes.ticklabel_format(style='plain', useOffset=False)
    # a dollar sign would begin a formula
    axes.set_title(shown(title).replace('$', r'\$'))
    figure.colorbar(image, label='depth')
    figure.tight_layout()
    content = io.BytesIO()
    figure.savefig(content, format='png', metadata={'Software': None})
    return content.getvalue()
