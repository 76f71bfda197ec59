#!/usr/bin/env python3
"""gen_document.py [--mb N] [--faults K] [--faulty items|leaves] [--seed S] [--shape NAME] [--valid] > FILE.gltf

A large document of everything that the format lists, of close to N million bytes of compact JSON, to measure with: a tree
of nodes with transforms, meshes with indices and four attributes each, materials and textures, animations, skins, lights.
It has no faults. --faults K breaks K indexes, spread evenly over the meshes of nodes. --faulty items breaks an index or a
choice in each item of each list; --faulty leaves adds a morph target to each mesh and breaks its last index, which is the
last leaf of the mesh. --valid obeys also the rules of the specification that reports say nothing of: joints differ, rotations
have the length 1, matrices only move, and keyframes and matrices of skins have views without a stride. The same parameters
give the same bytes.

--shape NAME writes a document of N million bytes of one thing repeated instead, such as members of one name; shapes.py
prints the names.
"""
import json
import sys

from parameters import chance, given
from shapes import document_of

if given.shape:
    sys.stdout.write(document_of(given.shape, int(given.mb * 1e6)))
    sys.exit()

BYTES_OF_A_MESH = 1660  # with all that is listed for it, about
MESHES = max(1, int(given.mb * 1e6 / BYTES_OF_A_MESH))
MATERIALS, TEXTURES, LIGHTS = max(1, MESHES // 2), max(1, MESHES // 4), 8
FLOAT, UNSIGNED_INT, ARRAY_BUFFER, ELEMENT_ARRAY_BUFFER = 5126, 5125, 34962, 34963
NOTHING = 4000000000  # an index that names no item
COMPONENTS = {"SCALAR": 1, "VEC2": 2, "VEC3": 3, "VEC4": 4, "MAT4": 16}

views, accessors = [], []


def numbers(count, least, most):
    return [round(chance.uniform(least, most), 6) for _ in range(count)]


def number(least, most):
    return numbers(1, least, most)[0]


def listed(count, shape, component=FLOAT, target=ARRAY_BUFFER, bounds=False):
    """Lists an accessor with a view of its own, and returns its index."""
    before = views[-1] if views else {"byteOffset": 0, "byteLength": 0}
    size = 4 * COMPONENTS[shape]
    view = {"buffer": 0, "byteOffset": before["byteOffset"] + before["byteLength"], "byteLength": count * size, "target": target}
    if target == ARRAY_BUFFER and size <= 252 and len(views) % 2:
        view["byteStride"] = size
    views.append(view)
    accessor = {"bufferView": len(views) - 1, "byteOffset": 0, "componentType": component, "count": count, "type": shape}
    if bounds:
        accessor["min"] = numbers(COMPONENTS[shape], -10, 0)
        accessor["max"] = numbers(COMPONENTS[shape], 0, 10)
    accessors.append(accessor)
    return len(accessors) - 1


def texture(**more):
    return {"index": chance.randrange(TEXTURES), **more}


def material(i):
    made = {
        "name": f"material_{i:05}",
        "pbrMetallicRoughness": {
            "baseColorFactor": [*numbers(3, 0, 1), 1],
            "baseColorTexture": texture(),
            "metallicFactor": number(0, 1),
            "roughnessFactor": number(0, 1),
        },
        "doubleSided": i % 3 == 0,
    }
    if i % 2:
        made["normalTexture"] = texture(scale=number(0, 2))
        made["occlusionTexture"] = texture(strength=number(0, 1))
    if i % 5 == 0:
        transform = {"offset": numbers(2, 0, 1), "scale": [2, 2]}
        made["emissiveFactor"] = numbers(3, 0, 1)
        made["emissiveTexture"] = texture(extensions={"KHR_texture_transform": transform})
        made["extensions"] = {
            "KHR_materials_emissive_strength": {"emissiveStrength": number(0, 9)},
            "KHR_materials_ior": {"ior": number(1, 2)},
        }
    if i % 7 == 0:
        made["alphaMode"], made["alphaCutoff"] = "MASK", 0.5
    return made


def mesh(i):
    count = chance.randrange(100, 20000)
    primitive = {
        "attributes": {
            "POSITION": listed(count, "VEC3", bounds=True),
            "NORMAL": listed(count, "VEC3"),
            "TEXCOORD_0": listed(count, "VEC2"),
            "TANGENT": listed(count, "VEC4"),
        },
        "indices": listed(3 * count, "SCALAR", UNSIGNED_INT, ELEMENT_ARRAY_BUFFER),
        "material": chance.randrange(MATERIALS),
    }
    if i % 3 == 0:
        primitive["mode"] = 4
    return {"name": f"mesh_{i:05}", "primitives": [primitive]}


def nodes_of(i):
    """Two nodes: one with the mesh and a transform in parts, one with a matrix."""
    parts = {"name": f"node_{i:05}", "mesh": i, "translation": numbers(3, -100, 100), "rotation": numbers(4, -1, 1), "scale": [1, 1, 1]}
    matrix = {"name": f"group_{i:05}", "matrix": [*numbers(15, -1, 1), 1]}
    if i % 16 == 0:
        matrix["extensions"] = {"KHR_lights_punctual": {"light": i % LIGHTS}}
    if i % 10 == 0:
        matrix["extras"] = {"tag": "group", "layer": i, "visible": True}
    return [parts, matrix]


def animation(i, count):
    times = listed(60, "SCALAR", bounds=True)
    paths = [("translation", "VEC3"), ("rotation", "VEC4"), ("scale", "VEC3")]
    samplers = [{"input": times, "interpolation": "LINEAR", "output": listed(60, paths[k % 3][1])} for k in range(12)]
    channels = [{"sampler": k, "target": {"node": chance.randrange(count), "path": paths[k % 3][0]}} for k in range(12)]
    return {"name": f"animation_{i:04}", "channels": channels, "samplers": samplers}


def skin(count):
    return {"inverseBindMatrices": listed(16, "MAT4"), "joints": [chance.randrange(count) for _ in range(16)]}


def light(i):
    made = {"type": ("directional", "point", "spot")[i % 3], "color": numbers(3, 0, 1), "intensity": number(0, 100)}
    return {**made, "spot": {"innerConeAngle": 0.1, "outerConeAngle": 0.6}} if made["type"] == "spot" else made


materials = [material(i) for i in range(MATERIALS)]
meshes = [mesh(i) for i in range(MESHES)]
nodes = [node for i in range(MESHES) for node in nodes_of(i)]
for i, node in enumerate(nodes):
    children = range(4 * i + 1, min(4 * i + 5, len(nodes)))
    if children:
        node["children"] = [*children]
animations = [animation(i, len(nodes)) for i in range(max(1, MESHES // 40))]
skins = [skin(len(nodes)) for _ in animations]
for k in range(given.faults):
    nodes[2 * (k * MESHES // given.faults)]["mesh"] = NOTHING
def break_items():
    for node in nodes:
        node["skin"] = NOTHING
    for made in meshes:
        made["primitives"][0]["material"] = NOTHING
    for made in materials:
        made["emissiveTexture"] = {"index": NOTHING}
    for accessor in accessors:
        accessor["bufferView"] = NOTHING
    for view in views:
        view["buffer"] = NOTHING
    for made in animations:
        for channel in made["channels"]:
            channel["target"]["node"] = NOTHING
        for sampler in made["samplers"]:
            sampler["output"] = NOTHING
    for made in skins:
        made["skeleton"] = NOTHING


def break_leaves():
    for made in meshes:
        made["primitives"][-1]["targets"] = [{"POSITION": 0, "NORMAL": 1, "TANGENT": NOTHING}]


def obey():
    for node in nodes:
        if "rotation" in node:
            length = sum(x * x for x in node["rotation"]) ** 0.5
            node["rotation"] = [round(x / length, 6) for x in node["rotation"]]
        if "matrix" in node:
            node["matrix"] = [1, 0, 0, 0, 0, 1, 0, 0, 0, 0, 1, 0, *node["matrix"][:3], 1]
    for made in skins:
        made["joints"] = chance.sample(range(len(nodes)), min(16, len(nodes)))
        views[accessors[made["inverseBindMatrices"]]["bufferView"]].pop("byteStride", None)
    for made in animations:
        for sampler in made["samplers"]:
            for name in ("input", "output"):
                views[accessors[sampler[name]]["bufferView"]].pop("byteStride", None)
        for channel in made["channels"]:
            channel["target"]["node"] -= channel["target"]["node"] % 2  # a node without a matrix


if given.valid:
    obey()
if given.faulty == "items":
    break_items()
elif given.faulty == "leaves":
    break_leaves()
source = NOTHING if given.faulty == "items" else None
document = {
    "asset": {"version": "2.0", "generator": "gen_document.py"},
    "scene": 0,
    "scenes": [{"name": "scene", "nodes": [0]}],
    "extensionsUsed": ["KHR_lights_punctual", "KHR_materials_emissive_strength", "KHR_materials_ior", "KHR_texture_transform"],
    "extensions": {"KHR_lights_punctual": {"lights": [light(i) for i in range(LIGHTS)]}},
    "nodes": nodes,
    "meshes": meshes,
    "materials": materials,
    "textures": [{"name": f"texture_{i:05}", "sampler": i % 2, "source": source or i} for i in range(TEXTURES)],
    "images": [{"name": f"image_{i:05}", "uri": f"textures/{i:05}.png", "mimeType": "image/png"} for i in range(TEXTURES)],
    "samplers": [{"magFilter": 9729, "minFilter": 9987}, {"wrapS": 33071, "wrapT": 33648}],
    "animations": animations,
    "skins": skins,
    "cameras": [{"type": "perspective", "perspective": {"yfov": 0.8, "znear": 0.1}}],
    "accessors": accessors,
    "bufferViews": views,
    "buffers": [{"byteLength": views[-1]["byteOffset"] + views[-1]["byteLength"], "uri": "large.bin"}],
}
sys.stdout.write(json.dumps(document, separators=(",", ":")))
