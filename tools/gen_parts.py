#!/usr/bin/env python3
"""gen_parts.py [--mb N] [--faults K] [--seed S] > FILE.gltf

A large document of accessors, buffers and views alone, of close to N million bytes of compact JSON, to measure with.
--faults K breaks K indexes, spread evenly over the accessors. The same parameters give the same bytes.
"""
import json
import sys

from parameters import chance, given

SHAPES = [("VEC3", 5126, 12), ("VEC2", 5126, 8), ("VEC4", 5126, 16), ("SCALAR", 5125, 4)]
BYTES_OF_A_PAIR = 181  # of an accessor and its view, about

views, accessors, offset = [], [], 0
for number in range(max(1, int(given.mb * 1e6 / BYTES_OF_A_PAIR))):
    shape, component, size = SHAPES[number % 4]
    count = chance.randrange(100, 20000)
    view = {"buffer": 0, "byteOffset": offset, "byteLength": count * size, "target": 34963 if shape == "SCALAR" else 34962}
    if number % 2:
        view["byteStride"] = max(4, size)
    offset += count * size
    views.append(view)
    accessor = {"bufferView": number, "byteOffset": 0, "componentType": component, "count": count, "type": shape}
    if number % 4 == 0:
        accessor["min"] = [round(chance.uniform(-10, 0), 6) for _ in range(3)]
        accessor["max"] = [round(chance.uniform(0, 10), 6) for _ in range(3)]
    accessors.append(accessor)
for k in range(given.faults):
    accessors[k * len(accessors) // given.faults]["bufferView"] = 4000000000
document = {
    "asset": {"version": "2.0", "generator": "gen_parts.py"},
    "accessors": accessors,
    "bufferViews": views,
    "buffers": [{"byteLength": offset, "uri": "large.bin"}],
}
sys.stdout.write(json.dumps(document, separators=(",", ":")))
