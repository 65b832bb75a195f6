"""Files of OMF 1, written after the description of the format by code of the tests' own: neither the reader nor the export is used."""

import json
import struct
import uuid
import zlib

import numpy as np


class Written:
    """A project that grows object by object; `save` writes it."""

    def __init__(self, origin=(0.0, 0.0, 0.0)):
        self.packed, self.objects = b"", {}
        self.project = self.add("Project", name="Hill", origin=list(origin), elements=[])

    def add(self, kind, **keys):
        identifier = str(uuid.UUID(int=len(self.objects) + 1))
        self.objects[identifier] = {
            "__class__": kind,
            "uid": identifier,
            "date_created": "2026-11-28T00:00:00Z",
            **keys,
        }
        return identifier

    def pack(self, numbers, dtype="<f8"):
        """The place of an array behind the header."""
        data = zlib.compress(np.asarray(numbers).astype(dtype).tobytes())
        place = {"start": 60 + len(self.packed), "length": len(data), "dtype": dtype}
        self.packed += data
        return place

    def volume(self, u, v, w, data=(), name="Blocks", packs=False, **geometry):
        """A volume of cells, with sides as lists or as packed arrays."""
        sides = {f"tensor_{axis}": self.pack(side) if packs else list(side) for axis, side in zip("uvw", (u, v, w))}
        geometry = self.add("VolumeGridGeometry", **sides, **geometry)
        element = self.add("VolumeElement", name=name, geometry=geometry, data=list(data), subtype="volume")
        self.objects[self.project]["elements"].append(element)
        return element

    def numbers(self, name, values, dtype="<f8", location="cells"):
        array = self.add("ScalarArray", array=self.pack(values, dtype))
        return self.add("ScalarData", name=name, location=location, array=array)

    def categories(self, name, values, names, kind="StringArray"):
        array = self.add("ScalarArray", array=self.pack(values, "<i8"))
        legend = self.add("Legend", name=name, values=self.add(kind, array=names))
        return self.add("MappedData", name=name, location="cells", array=array, legends=[legend])

    def texts(self, name, values, kind="StringData"):
        array = self.add("StringArray", array=list(values))
        return self.add(kind, name=name, location="cells", array=array)

    def bytes(self, version=b"OMF-v0.9.0", magic=b"\x84\x83\x82\x81"):
        head = (
            magic + version.ljust(32, b"\0") + uuid.UUID(self.project).bytes + struct.pack("<Q", 60 + len(self.packed))
        )
        return head + self.packed + json.dumps(self.objects).encode()

    def save(self, path, **keys):
        path.write_bytes(self.bytes(**keys))
        return path


def read_plainly(path):
    """The objects of a file by identifier, and a function that unpacks an array: for files of the export."""
    data = path.read_bytes()
    magic, version, project, start = struct.unpack("<4s32s16sQ", data[:60])
    assert magic == b"\x84\x83\x82\x81" and version.startswith(b"OMF-v0.9.0")
    objects = json.loads(data[start:])

    def unpack(place):
        packed = data[place["start"] : place["start"] + place["length"]]
        return np.frombuffer(zlib.decompress(packed), dtype=place["dtype"])

    return objects[str(uuid.UUID(bytes=project))], objects, unpack
