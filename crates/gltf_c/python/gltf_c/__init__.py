"""glTF 2.0 documents, checked and written anew by the library gltf_c.

Each call takes the bytes of a document (`bytes`, `bytearray` or `memoryview`), and returns a status
and the bytes of its output:

    status, lines = gltf_c.check(Path("model.gltf").read_bytes())

Checks also take the bytes of .glb files. `reports` returns a dict for each report, `findings` one for
each finding by the glTF 2.0 specification.

The statuses are those of gltf_c.h. The library is the file that GLTF_C names, else the one in this
package.
"""
from __future__ import annotations

import ctypes
import json
import os
from pathlib import Path
from typing import Any, Iterable, List, Tuple, Union

OK = 0
REPORTS = 1
NOT_JSON = 2
NOT_GLTF = 3
NO_MEMORY = 4
INVALID_ITEM = 5
NOT_TEXT = 6
NOT_GLB = 7

# What a document and the name of a file are given as.
Bytes = Union[bytes, bytearray, memoryview]
File = Union[str, bytes, os.PathLike]

# Room for most outputs. A longer one is asked for again, with as much room as it needs.
_ROOM = 65536


class _Returned(ctypes.Structure):
    _fields_ = [("status", ctypes.c_uint8), ("needed", ctypes.c_size_t)]


def _loaded():
    """The library, with the types of its calls."""
    path = os.environ.get("GLTF_C") or Path(__file__).with_name("libgltf_c.so")
    library = ctypes.CDLL(str(path))
    slice_of = [ctypes.c_char_p, ctypes.c_size_t]
    for name, arguments in {
        "gltf_c_check": slice_of + slice_of,
        "gltf_c_check_by": slice_of + slice_of + [ctypes.c_bool] + slice_of,
        "gltf_c_check_json": slice_of + slice_of + slice_of,
        "gltf_c_findings": slice_of + slice_of + slice_of,
        "gltf_c_rewrite": slice_of + slice_of,
        "gltf_c_version": slice_of,
    }.items():
        call = getattr(library, name)
        call.argtypes, call.restype = arguments, _Returned
    return library


_library = _loaded()


def _bytes(document: Bytes) -> bytes:
    return document if isinstance(document, bytes) else bytes(memoryview(document))


def _name(file: File) -> bytes:
    return os.fsdecode(file).encode("utf-8", "replace")


def _ask(call, *given) -> Tuple[int, bytes]:
    room = _ROOM
    while True:
        output = ctypes.create_string_buffer(room)
        returned = call(*given, output, room)
        if returned.needed <= room:
            return returned.status, output.raw[: returned.needed]
        room = returned.needed


def check(document: Bytes) -> Tuple[int, bytes]:
    """A line for each report of a document, `clean`, or why it was refused."""
    document = _bytes(document)
    return _ask(_library.gltf_c_check, document, len(document))


def check_by(document: Bytes, names: Iterable[str], empty_texture: bool = False) -> Tuple[int, bytes]:
    """The same by rules: the names of the extensions that the document may require, as a list, and
    whether a texture may be without an image."""
    if isinstance(names, (str, bytes)):
        raise TypeError("names must be a list of names, not one text")
    document, lines = _bytes(document), "\n".join(names).encode()
    given = (document, len(document), lines, len(lines), empty_texture)
    return _ask(_library.gltf_c_check_by, *given)


def check_json(document: Bytes, file: File) -> Tuple[int, bytes]:
    """The lines that `gltf_lint --reports --json` prints for the reports of a document. `file` is
    the name that they give to the file, as a text or a path."""
    document, name = _bytes(document), _name(file)
    return _ask(_library.gltf_c_check_json, document, len(document), name, len(name))


def reports(document: Bytes, file: File) -> Tuple[int, List[Any]]:
    """The status, and the reports of a document as dicts: the objects of `check_json`."""
    status, lines = check_json(document, file)
    return status, [json.loads(line) for line in lines.decode().split("\n") if line]


def findings_json(document: Bytes, file: File) -> Tuple[int, bytes]:
    """The lines that `gltf_lint --json` prints for what the specification requires and a file
    doesn't have. `file` is the name that they give to the file, as a text or a path."""
    document, name = _bytes(document), _name(file)
    return _ask(_library.gltf_c_findings, document, len(document), name, len(name))


def findings(document: Bytes, file: File) -> Tuple[int, List[Any]]:
    """The status, and the findings of a file as dicts: the objects of `findings_json`."""
    status, lines = findings_json(document, file)
    return status, [json.loads(line) for line in lines.decode().split("\n") if line]


def rewrite(document: Bytes) -> Tuple[int, bytes]:
    """The document in one line, without nulls that the format doesn't allow, as `Root::to_vec_with`
    writes it."""
    document = _bytes(document)
    return _ask(_library.gltf_c_rewrite, document, len(document))


def version() -> str:
    """The version of the library."""
    return _ask(_library.gltf_c_version)[1].decode()


__version__ = version()
