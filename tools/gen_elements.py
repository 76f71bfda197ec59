#!/usr/bin/env python3
"""gen_elements.py: documents whose elements gltf_corpus_files prints, and what it must print.

It writes them into data/ of crates/gltf_corpus_run, with args and a part of stdout, or compares all
(`--check`). What is expected follows from the numbers that are packed here, by the table of glTF
2.0, section 3.6.2.2, and is never taken from the program.
"""
import base64
import json
import math
import struct
from decimal import Decimal

from corpus import ARGS, DATA, STDOUT, with_parts
from settle import is_check, settle

# Each component type: its number, its name, how it is packed, and what 1 is packed as if normalized.
COMPONENTS = {
    "i8": (5120, "I8", "b", 127),
    "u8": (5121, "U8", "B", 255),
    "i16": (5122, "I16", "h", 32767),
    "u16": (5123, "U16", "H", 65535),
    "u32": (5125, "U32", "I", None),
    "f32": (5126, "F32", "f", None),
}

# Each type: its name, how many columns it has, and of how many components each.
TYPES = {
    "SCALAR": ("Scalar", 1, 1),
    "VEC2": ("Vec2", 1, 2),
    "VEC3": ("Vec3", 1, 3),
    "VEC4": ("Vec4", 1, 4),
    "MAT2": ("Mat2", 2, 2),
    "MAT3": ("Mat3", 3, 3),
    "MAT4": ("Mat4", 4, 4),
}

# What is packed behind a column that is padded.
PADDING = 0xAA


def single(x):
    """The float of 32 bits nearest to a number, or infinity if the number is too great."""
    try:
        return struct.unpack("<f", struct.pack("<f", x))[0]
    except OverflowError:
        return math.copysign(math.inf, x)


def float_text(x):
    """A float of 32 bits by its fewest digits that read back as it."""
    x = single(x)
    for digits in range(1, 10):
        text = f"{x:.{digits}g}"
        if single(float(text)) == x:
            return format(Decimal(text), "f")
    raise ValueError(x)


def number_text(component, x, normalized):
    one = COMPONENTS[component][3]
    if normalized:
        return float_text(max(single(x) / one, -1.0))
    return float_text(x) if component == "f32" else str(x)


def packed(component, shape, numbers):
    """The bytes of an element: columns begin at multiples of 4 (section 3.6.2.4)."""
    _, columns, rows = TYPES[shape]
    form = COMPONENTS[component][2]
    element = b""
    for column in range(columns):
        element += struct.pack(f"<{rows}{form}", *numbers[rows * column:rows * (column + 1)])
        if columns > 1:
            element += bytes([PADDING]) * (-len(element) % 4)
    return element


def element_line(component, shape, numbers, normalized):
    """The line of an element: its numbers, or its bytes if there is padding between them."""
    element = packed(component, shape, numbers)
    if len(element) != len(numbers) * struct.calcsize(COMPONENTS[component][2]):
        return "bytes " + " ".join(str(byte) for byte in element)
    return " ".join(number_text(component, x, normalized) for x in numbers)


class Document:
    """A document with one buffer, and the lines that are due."""

    def __init__(self):
        self.bytes, self.views, self.accessors, self.lines = b"", [], [], []
        self.elements, self.lists, self.read_lines = [], {}, []

    def align(self):
        self.bytes += bytes([PADDING]) * (-len(self.bytes) % 4)

    def view(self, data, **more):
        """Appends bytes, and lists them as a view."""
        self.align()
        entry = {"buffer": 0, "byteOffset": len(self.bytes), "byteLength": len(data), **more}
        self.bytes += data
        self.views.append(entry)
        return len(self.views) - 1

    def accessor(self, component, shape, elements, normalized=False, **more):
        """Lists an accessor, and the lines that are due of it."""
        number, name = COMPONENTS[component][:2]
        entry = {"componentType": number, "type": shape, "count": len(elements), **more}
        if normalized:
            entry["normalized"] = True
        said = ", normalized" if normalized else ""
        self.lines.append(
            f"accessor {len(self.accessors)}: {len(elements)} {TYPES[shape][0]} of {name}{said}")
        rows = [element_line(component, shape, numbers, normalized) for numbers in elements]
        self.lines.extend(rows)
        self.elements.append(rows)
        self.accessors.append(entry)
        return len(self.accessors) - 1

    def dense(self, component, shape, elements, normalized=False):
        """An accessor that is the whole of a view."""
        data = b"".join(packed(component, shape, numbers) for numbers in elements)
        return self.accessor(component, shape, elements, normalized, bufferView=self.view(data))

    def read(self, name, accessor, behind=""):
        """The lines that are due where an accessor is read."""
        self.read_lines.extend([name, *(row + behind for row in self.elements[accessor])])

    def sparse(self, component, shape, base, index_type, deviating, normalized=False):
        """An accessor of which some elements deviate. It has no view if all others are zeros."""
        index_number, _, index_form, _ = COMPONENTS[index_type]
        indices = struct.pack(f"<{len(deviating)}{index_form}", *deviating)
        values = b"".join(packed(component, shape, numbers) for numbers in deviating.values())
        more = {"sparse": {
            "count": len(deviating),
            "indices": {"bufferView": self.view(indices), "componentType": index_number},
            "values": {"bufferView": self.view(values)},
        }}
        if any(any(numbers) for numbers in base):
            data = b"".join(packed(component, shape, numbers) for numbers in base)
            more["bufferView"] = self.view(data)
        elements = [deviating.get(i, numbers) for i, numbers in enumerate(base)]
        return self.accessor(component, shape, elements, normalized, **more)

    def faulty(self, component, shape, count, view, fault, **more):
        """Lists an accessor that can't be read, and the line that says why."""
        entry = {"componentType": COMPONENTS[component][0], "type": shape, "count": count, **more}
        if view is not None:
            entry["bufferView"] = view
        self.lines.append(f"accessor {len(self.accessors)}: {fault}")
        self.accessors.append(entry)

    def json(self, **buffer):
        """The text of the document."""
        length = len(self.bytes)
        document = {"asset": {"version": "2.0"}, "accessors": self.accessors, **self.lists}
        if self.views:
            document["bufferViews"] = self.views
            document["buffers"] = [{"byteLength": length, **buffer}]
        return json.dumps(document, indent=1) + "\n"

    def with_data_uri(self):
        data = base64.b64encode(self.bytes).decode()
        return self.json(uri="data:application/octet-stream;base64," + data)


def glb(text, data):
    """A binary file (section 4.4): the document and, if there is one, the data of its buffer."""
    text = text.encode()
    text += b" " * (-len(text) % 4)
    chunks = struct.pack("<I4s", len(text), b"JSON") + text
    if data is not None:
        data += bytes(-len(data) % 4)
        chunks += struct.pack("<I4s", len(data), b"BIN\0") + data
    return struct.pack("<4sII", b"glTF", 2, 12 + len(chunks)) + chunks


# Numbers of each component type, the least and the greatest among them.
NUMBERS = {
    "i8": [-128, -127, -64, -1, 0, 1, 63, 64, 100, 126, 127, 5],
    "u8": [0, 1, 51, 127, 128, 200, 254, 255, 9, 10, 11, 12],
    "i16": [-32768, -32767, -256, -1, 0, 1, 255, 256, 16384, 32766, 32767, 770],
    "u16": [0, 1, 255, 256, 13107, 32767, 32768, 65534, 65535, 515, 516, 517],
    "u32": [0, 1, 65535, 65536, 16777216, 16777217, 2147483647, 2147483648, 4294967294,
            4294967295, 67305985, 3],
    "f32": [0.0, -0.0, 1.0, -2.5, 0.1, 16777216.0, 3.4028235e38, -3.4028235e38, 1e-5,
            1.1754944e-38, 123456.79, -0.333333343],
}


def elements_of(component, size, count):
    """So many elements, from the numbers in turn."""
    numbers = NUMBERS[component]
    return [[numbers[(size * i + k) % len(numbers)] for k in range(size)] for i in range(count)]


def types():
    """Each component type in each vector, and each that can be normalized."""
    made = Document()
    for component in COMPONENTS:
        for shape in ("SCALAR", "VEC2", "VEC3", "VEC4"):
            size = TYPES[shape][2]
            made.dense(component, shape, elements_of(component, size, 12 // size))
    for component in ("i8", "u8", "i16", "u16"):
        made.dense(component, "VEC4", elements_of(component, 4, 3), normalized=True)
    return made


def matrices():
    """Each component type in each matrix. Columns of 2 or 3 bytes and of 6 bytes are padded."""
    made = Document()
    for component in COMPONENTS:
        for shape in ("MAT2", "MAT3", "MAT4"):
            _, columns, rows = TYPES[shape]
            made.dense(component, shape, elements_of(component, columns * rows, 2))
    return made


def interleaved():
    """Three vertices, each with a position, a color, and a place in a texture behind each other."""
    positions = [[0.0, 0.5, 1.0], [-1.0, 2.0, 0.25], [3.0, -4.5, 8.0]]
    colors = [[255, 0, 51, 255], [0, 102, 0, 128], [1, 2, 3, 4]]
    places = [[0, 65535], [13107, 1], [32768, 52428]]
    made = Document()
    data = b""
    for position, color, place in zip(positions, colors, places):
        data += packed("f32", "VEC3", position) + packed("u8", "VEC4", color)
        data += packed("u16", "VEC2", place) + bytes([PADDING]) * 4
    made.view(b"\1\2\3\4")
    # The last vertex ends with the view: what would pad it is left out.
    view = made.view(data[:-4], byteStride=24)
    made.accessor("f32", "VEC3", positions, bufferView=view, byteOffset=0)
    made.accessor("u8", "VEC4", colors, True, bufferView=view, byteOffset=12)
    made.accessor("u16", "VEC2", places, True, bufferView=view, byteOffset=16)
    made.accessor("f32", "SCALAR", [[p[1]] for p in positions], bufferView=view, byteOffset=4)
    return made


def sparse():
    """Elements that deviate from those of a view, and from zeros, with each type of indices."""
    made = Document()
    vectors = elements_of("f32", 3, 6)
    made.sparse("f32", "VEC3", vectors, "u8", {1: [9.0, 8.0, 7.0], 5: [-1.0, 0.5, 0.0]})
    made.sparse("f32", "VEC2", [[0.0, 0.0]] * 4, "u16", {0: [1.0, 2.0], 3: [0.25, -8.0]})
    made.sparse("u16", "SCALAR", [[7], [8], [9], [10], [11]], "u32", {4: [65535]})
    made.sparse("u8", "VEC4", [[0] * 4] * 3, "u8", {0: [0, 51, 102, 255]}, normalized=True)
    made.sparse("i16", "VEC2", elements_of("i16", 2, 3), "u16",
                {0: [1, 2], 1: [3, 4], 2: [-5, -6]})
    made.sparse("f32", "MAT2", [[1.0, 0.0, 0.0, 1.0]] * 2, "u8", {1: [2.0, 0.5, -0.5, 2.0]})
    return made


def zeros():
    """Accessors without a view."""
    made = Document()
    for component in COMPONENTS:
        made.accessor(component, "VEC3", [[0, 0, 0]] * 2)
    made.accessor("u8", "VEC4", [[0] * 4], True)
    made.accessor("f32", "MAT4", [[0.0] * 16])
    return made


def small():
    """Ten bytes, which a binary file pads to twelve."""
    made = Document()
    made.dense("u8", "SCALAR", [[1], [2], [3]])
    made.dense("u8", "VEC3", [[255, 254, 253]])
    made.dense("u16", "SCALAR", [[65024]])
    return made


# The order in which the attributes of a primitive are printed, and under which names.
ATTRIBUTES = [
    ("POSITION", "positions"), ("NORMAL", "normals"), ("TANGENT", "tangents"),
    *((f"{key}_{k}", name) for k in range(2) for key, name in (
        ("TEXCOORD", "texture coordinates"), ("COLOR", "colors"), ("JOINTS", "joints"),
        ("WEIGHTS", "weights"))),
]


def primitive(made, attributes, indices=None, targets=()):
    """Lists a primitive, and the lines that are due of it."""
    made.read_lines.append("a primitive")
    for key, name in ATTRIBUTES:
        if key in attributes:
            shape = made.accessors[attributes[key]]["type"]
            made.read(name, attributes[key], " 1" if (name, shape) == ("colors", "VEC3") else "")
    entry = {"attributes": attributes}
    if indices is not None:
        entry["indices"] = indices
        made.read("indices", indices)
    for target in targets:
        for key, name in ATTRIBUTES[:3]:
            if key in target:
                made.read("target " + name, target[key])
    if targets:
        entry["targets"] = list(targets)
    made.lists.setdefault("meshes", [{"primitives": []}])[0]["primitives"].append(entry)


def primitives():
    """Each attribute in each format that section 3.7.2.1 allows, indices and morph targets."""
    made = Document()
    dense = made.dense
    positions = dense("f32", "VEC3", [[0.0, 0.5, 1.0], [-1.0, 2.0, 0.25], [3.0, -4.5, 8.0]])
    primitive(made, {
        "POSITION": positions,
        "NORMAL": dense("f32", "VEC3", [[0.0, 1.0, 0.0], [1.0, 0.0, 0.0], [0.0, 0.0, -1.0]]),
        "TANGENT": dense("f32", "VEC4", [[1.0, 0.0, 0.0, -1.0]] * 3),
        "TEXCOORD_0": dense("f32", "VEC2", [[0.0, 0.5], [1.0, 0.25], [0.75, 2.0]]),
        "TEXCOORD_1": dense("u8", "VEC2", [[0, 255], [51, 102], [1, 254]], True),
        "COLOR_0": dense("u8", "VEC3", [[255, 0, 51], [1, 2, 3], [9, 10, 11]], True),
        "COLOR_1": dense("u16", "VEC4", [[65535, 0, 13107, 1]] * 3, True),
        "JOINTS_0": dense("u8", "VEC4", [[0, 1, 2, 255]] * 3),
        "JOINTS_1": dense("u16", "VEC4", [[256, 1, 2, 65535]] * 3),
        "WEIGHTS_0": dense("f32", "VEC4", [[0.5, 0.25, 0.25, 0.0]] * 3),
        "WEIGHTS_1": dense("u8", "VEC4", [[255, 0, 0, 0]] * 3, True),
    }, dense("u8", "SCALAR", [[0], [1], [2]]), [
        {"POSITION": made.sparse("f32", "VEC3", [[0.0] * 3] * 3, "u8", {2: [0.0, 1.0, 0.0]}),
         "NORMAL": dense("f32", "VEC3", [[0.0, -1.0, 0.5]] * 3)},
        {"TANGENT": dense("f32", "VEC3", [[0.5, 0.0, 0.25]] * 3)},
    ])
    primitive(made, {
        "POSITION": positions,
        "TEXCOORD_0": dense("u16", "VEC2", [[0, 65535], [13107, 1], [2, 3]], True),
        "COLOR_0": dense("f32", "VEC3", [[0.5, 0.25, 1.0]] * 3),
        "COLOR_1": dense("f32", "VEC4", [[0.5, 0.25, 1.0, 0.125]] * 3),
        "WEIGHTS_0": dense("u16", "VEC4", [[65535, 0, 0, 0]] * 3, True),
    }, dense("u16", "SCALAR", [[2], [1], [0]]))
    primitive(made, {
        "POSITION": positions,
        "COLOR_0": dense("u8", "VEC4", [[255, 0, 51, 102]] * 3, True),
        "COLOR_1": dense("u16", "VEC3", [[65535, 0, 13107]] * 3, True),
    }, dense("u32", "SCALAR", [[0], [2], [1]]))
    primitive(made, {"POSITION": positions})
    return made


def animations():
    """A skin, and keyframes of each property in each format that section 3.11 allows."""
    made = Document()
    made.lists["nodes"] = [{}]
    matrices = made.dense("f32", "MAT4", [[float(16 * i + k) for k in range(16)] for i in (0, 1)])
    made.lists["skins"] = [{"joints": [0, 0], "inverseBindMatrices": matrices}]
    made.read("inverse bind matrices", matrices)
    times = made.dense("f32", "SCALAR", [[0.0], [1.5]])
    channels, samplers = [], []
    for path, name, shape, components in (
        ("translation", "translations", "VEC3", ["f32"]),
        ("rotation", "rotations", "VEC4", ["f32", "i8", "u8", "i16", "u16"]),
        ("scale", "scales", "VEC3", ["f32"]),
        ("weights", "morph weights", "SCALAR", ["f32", "i8", "u8", "i16", "u16"]),
    ):
        for component in components:
            elements = elements_of(component, TYPES[shape][2], 2)
            output = made.dense(component, shape, elements, component != "f32")
            channels.append({"sampler": len(samplers), "target": {"node": 0, "path": path}})
            samplers.append({"input": times, "output": output})
            made.read("times", times)
            made.read(name, output)
    made.lists["animations"] = [{"channels": channels, "samplers": samplers}]
    return made


def misread(fault, attributes, indices, component, normalized=False):
    """A document with a primitive that can't be read, and the lines that are due."""
    made = Document()
    shape = "SCALAR" if indices is not None else "VEC3"
    made.dense(component, shape, [[1] * TYPES[shape][2]] * 2, normalized)
    entry = {"attributes": attributes}
    if indices is not None:
        entry["indices"] = indices
    made.lists["meshes"] = [{"primitives": [entry]}]
    made.read_lines.extend(["a primitive", "fault: " + fault])
    return with_uri(made)


def element_faults():
    """Accessors with elements that may not be present, and sparse ones with wrong indices."""
    made = Document()
    nan, infinite = float("nan"), float("inf")
    for elements, element, component in (
        ([[1.0, 2.0, 3.0], [4.0, 5.0, nan]], 1, 2),
        ([[1.0, -infinite, nan]], 0, 1),
    ):
        data = b"".join(packed("f32", "VEC3", numbers) for numbers in elements)
        made.faulty("f32", "VEC3", len(elements), made.view(data),
                    f"component {component} of element {element} is NaN or infinite")
    for indices, fault in (
        ([1, 1], "the sparse index 1 is not above the one at place 0"),
        ([2, 1], "the sparse index 1 is not above the one at place 0"),
        ([1, 4], "the sparse index 4, at place 1, is that of no element"),
    ):
        made.faulty("u8", "SCALAR", 4, None, fault, sparse={
            "count": 2,
            "indices": {"bufferView": made.view(bytes(indices)), "componentType": 5121},
            "values": {"bufferView": made.view(b"\x09\x09")},
        })
    return made


GREATEST = 2**32 - 1

# A fault of an accessor with floats in a view of 24 bytes, or in one of them with a stride.
TOO_LONG = "the last element ends behind the view"


def layout_faults():
    """Accessors that don't fit, each with the fault that is due."""
    made = Document()
    plain = made.view(bytes(24))
    strided = made.view(bytes(24), byteStride=16)
    far = made.view(bytes(24), byteStride=GREATEST)
    odd = made.view(bytes(24), byteStride=6)
    two = {"count": 2, "indices": {"bufferView": plain, "componentType": 5121},
           "values": {"bufferView": plain, "byteOffset": 4}}
    for component, shape, count, view, fault, more in (
        ("f32", "VEC3", 3, plain, TOO_LONG, {}),
        ("u8", "VEC3", 8, plain, TOO_LONG, {"byteOffset": 1}),
        ("f32", "VEC2", 3, strided, TOO_LONG, {}),
        ("f32", "VEC3", 2, strided, TOO_LONG, {}),
        ("u8", "SCALAR", 2, far, TOO_LONG, {}),
        ("u8", "SCALAR", GREATEST, far, TOO_LONG, {}),
        ("u8", "SCALAR", GREATEST, plain, TOO_LONG, {}),
        ("u8", "SCALAR", 1, plain, TOO_LONG, {"byteOffset": GREATEST}),
        ("u8", "MAT2", 4, plain, TOO_LONG, {}),
        ("u16", "MAT3", 2, plain, TOO_LONG, {}),
        ("f32", "VEC3", 1, odd, "the view's stride is less than the size of an element", {}),
        ("f32", "SCALAR", 1, plain, "the accessor's offset in its view is no multiple of the "
         "component's size", {"byteOffset": 2}),
        ("f32", "SCALAR", 2, odd, "the view's stride is no multiple of the component's size", {}),
        ("f32", "SCALAR", 0, plain, "the accessor has no element", {}),
        ("f32", "SCALAR", 1, GREATEST, f"there is no buffer view {GREATEST}", {}),
        ("f32", "SCALAR", 1, None, "sparse: more elements deviate than there are",
         {"sparse": two}),
        ("u8", "SCALAR", 9, None, f"sparse: indices: {TOO_LONG}",
         {"sparse": {**two, "indices": {**two["indices"], "byteOffset": 23}}}),
        ("u8", "VEC4", 9, None, f"sparse: values: {TOO_LONG}",
         {"sparse": {**two, "values": {"bufferView": plain, "byteOffset": 17}}}),
    ):
        made.faulty(component, shape, count, view, fault, **more)
    return made


def uri_of_bytes(length):
    """A document with a buffer of so many bytes, of which its URI has three."""
    buffer = {"byteLength": length, "uri": "data:;base64,AQID"}
    return json.dumps({"asset": {"version": "2.0"}, "buffers": [buffer]}) + "\n"


def file_at(uri):
    buffer = {"byteLength": 1, "uri": uri}
    return json.dumps({"asset": {"version": "2.0"}, "buffers": [buffer]}) + "\n"


def main():
    check = is_check(__doc__)
    files, lines = {}, []

    def put(name, content, due):
        files[name] = content
        lines.extend([f"# {name}", *due])

    put("types.gltf", *with_uri(types()))
    put("matrices.gltf", *with_uri(matrices()))
    made = interleaved()
    files["vertices.bin"] = made.bytes
    put("interleaved.gltf", made.json(uri="./vertices%2Ebin"), made.lines)
    put("sparse.gltf", *with_uri(sparse()))
    made = zeros()
    put("zeros.gltf", made.json(), made.lines)
    put("primitives.gltf", *with_uri(primitives()))
    put("animations.gltf", *with_uri(animations()))
    made = small()
    put("with_bin.glb", glb(made.json(), made.bytes), made.lines)
    text, due = with_uri(small())
    put("without_bin.glb", glb(text, None), due)
    put("positions_as_shorts.gltf", *misread(
        "accessor 0: positions can't be normalized unsigned short VEC3", {"POSITION": 0}, None,
        "u16", True))
    put("signed_indices.gltf", *misread(
        "accessor 0: indices can't be signed byte SCALAR", {}, 0, "i8"))
    put("no_accessor.gltf", *misread("there is no accessor 1", {"NORMAL": 1}, None, "f32"))
    put("element_faults.gltf", *with_uri(element_faults()))
    put("layout_faults.gltf", *with_uri(layout_faults()))
    put("no_bin.glb", glb(small().json(), None), ["fault: buffer 0 has no bytes"])
    put("short_bin.glb", glb(small().json(), small().bytes[:8]),
        ["fault: buffer 0 has only 8 bytes"])
    put("short.gltf", uri_of_bytes(4), ["fault: buffer 0 has only 3 bytes"])
    put("longest.gltf", uri_of_bytes(2**64 - 1), ["fault: buffer 0 has only 3 bytes"])
    put("parent.gltf", file_at("a/%2e./vertices.bin"),
        ["fault: buffer 0: the path has a segment .."])
    args = [name for name in files if not name.endswith(".bin")]
    settle({
        ARGS: "".join(name + "\n" for name in args),
        STDOUT: with_parts({"elements": "".join(line + "\n" for line in lines)}),
        **{DATA / name: content for name, content in files.items()},
    }, check)


def with_uri(made):
    """The text of a document with a data URI, and its lines."""
    return made.with_data_uri(), made.lines + made.read_lines


if __name__ == "__main__":
    main()
