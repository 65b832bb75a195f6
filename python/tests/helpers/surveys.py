"""Survey files that are written for a test: drawings, maps and rasters."""

import ezdxf
import numpy as np
from osgeo import gdal, ogr, osr

from pitplan.config.table import SurveyFile
from pitplan.survey import readers

# Least and greatest x and y of what a raster is read for.
AROUND = (0.0, 60.0, 0.0, 40.0)


def drawing(path, *shapes, units=6):
    """A drawing of what each of the functions adds to its model space."""
    made = ezdxf.new("R2010")
    made.header["$INSUNITS"] = units
    for shape in shapes:
        shape(made.modelspace())
    made.saveas(path)
    return path


def layer(name, **more):
    return {"dxfattribs": {"layer": name, **more}}


def gis(path, driver, layers, epsg=None):
    """A map of layers by name, each a list of geometries as well-known text with a value of the field ELEV."""
    system = None
    if epsg:
        system = osr.SpatialReference()
        system.ImportFromEPSG(epsg)
    source = ogr.GetDriverByName(driver).CreateDataSource(str(path))
    for name, geometries in layers.items():
        # A shapefile is of one kind, which its first geometry tells.
        kind = (
            ogr.CreateGeometryFromWkt(geometries[0][0]).GetGeometryType()
            if driver == "ESRI Shapefile"
            else ogr.wkbUnknown
        )
        made = source.CreateLayer(name, system, kind)
        made.CreateField(ogr.FieldDefn("ELEV", ogr.OFTReal))
        for text, value in geometries:
            feature = ogr.Feature(made.GetLayerDefn())
            feature.SetGeometry(ogr.CreateGeometryFromWkt(text))
            if value is not None:
                feature.SetField("ELEV", value)
            made.CreateFeature(feature)
        del made
    del source
    return path


def tiff(path, heights, place, epsg=None, nothing=None, unit=None, bands=1):
    """A raster of heights by rows from its upper edge."""
    heights = np.asarray(heights, dtype=float)
    made = gdal.GetDriverByName("GTiff").Create(str(path), heights.shape[1], heights.shape[0], bands, gdal.GDT_Float64)
    if place is not None:
        made.SetGeoTransform(place)
    if epsg:
        system = osr.SpatialReference()
        system.ImportFromEPSG(epsg)
        made.SetProjection(system.ExportToWkt())
    band = made.GetRasterBand(1)
    band.WriteArray(heights)
    if nothing is not None:
        band.SetNoDataValue(nothing)
    if unit:
        band.SetUnitType(unit)
    made = None
    return path


def read(path, *layers, height=None):
    return readers.topography(SurveyFile(path, layers, height), AROUND)


def areas(path, *layers):
    return readers.areas(SurveyFile(path, layers))


SURFACE = '\n[constraints]\ntopography = "blocks"\nas_mined = '
LEASE = [(-1, -1), (31, -1), (31, 11), (-1, 11)]
AREA = "\n[[constraints.areas]]\npolygon = "
HOLED = "POLYGON ((-1 -1,41 -1,41 31,-1 31,-1 -1),(9 9,21 9,21 21,9 21,9 9))"
