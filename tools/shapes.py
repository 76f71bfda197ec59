#!/usr/bin/env python3
"""shapes.py [--pairs] prints the names of the shapes that gen_document.py --shape takes: documents of one thing repeated,
which are slow to read, or need much memory, if the reader isn't made for them. All are glTF documents. With --pairs it
prints the names of documents of two lists instead, which are slow to check if a rule goes through one for each item of the
other.

The shares of docs/PERFORMANCE.md, at the top of the repository:

    for mb in 1 10; do
        python3 tools/gen_document.py --mb $mb > usual.gltf
        for name in $(python3 tools/shapes.py); do
            python3 tools/gen_document.py --mb $mb --shape $name > shape.gltf
            for file in usual shape; do
                echo "$name, $mb MB, $file"
                crates/gltf_bench/out/gltf_bench $file.gltf | grep 'slice and drop'
            done
        done
    done

The share of the usual document is one `Root::from_slice and drop` divided by the other. The share of
the floor is it divided by `Value::from_slice and drop` of the same file.
"""
from settle import parser_of

HEAD = '"asset":{"version":"2.0"}'
NODE = '{"nodes":[{%s}],' + HEAD + "}"
PRIMITIVE = '{"meshes":[{"primitives":[{%s}]}],' + HEAD + "}"
ATTRIBUTES = PRIMITIVE % '"attributes":{%s}'
MATERIAL = '{"materials":[{"extensions":{%s}}],' + HEAD + "}"
GLOSSINESS = MATERIAL % '"KHR_materials_pbrSpecularGlossiness":{%s}'
IOR = MATERIAL % '"KHR_materials_ior":{%s}'
ROOT = "{" + HEAD + ",%s}"
EXTRAS = ROOT % '"extras":%s'
DEEPEST = 120  # levels of one value, below the limit of 127 with those around it
ROWS_OF_A_NODE = ["camera", "children", "matrix", "mesh", "name", "rotation", "scale", "translation", "skin", "weights"]
NODE_BACKWARDS = "{" + ",".join(f'"{name}":null' for name in reversed(ROWS_OF_A_NODE)) + "}"


def same(item):
    return lambda k: item


def numbered(text):
    """Names of one length, in rising order."""
    return lambda k: text % f"{k:07}"


def falling(text):
    return lambda k: text % f"{9999999 - k:07}"


def list_of(name):
    return ROOT % f'"{name}":[%s]'


def nested(opening, inner, closing):
    return same(opening * DEEPEST + inner + closing * DEEPEST)


# What is around the items, how the k-th item is written, and what comes before the first one.
SHAPES = {
    # members of one name, behind a member of another name
    "equal-root": (ROOT, same('"scene":0'), '"extras":0'),
    "equal-lists": (ROOT, same('"nodes":[]'), '"extras":0'),
    "equal-asset": ('{"asset":{%s}}', same('"version":"2.0"'), '"z":0'),
    "equal-node": (NODE, same('"mesh":0'), '"z":0'),
    "equal-extensions": (MATERIAL, same('"KHR_materials_ior":{}'), '"z":0'),
    "equal-ior": (IOR, same('"ior":0'), '"z":0'),
    "equal-attributes": (ATTRIBUTES, same('"POSITION":0'), '"NORMAL":0'),
    "equal-extras": (EXTRAS % "{%s}", same('"a":0'), '"z":0'),
    # members that no row reads, of different names
    "unknown-root": (ROOT, numbered('"%s":0'), None),
    "unknown-node": (NODE, numbered('"%s":0'), None),
    "unknown-ior": (IOR, numbered('"%s":0'), None),
    "unknown-extensions": (MATERIAL, numbered('"%s":0'), None),
    "unknown-glossiness": (GLOSSINESS, numbered('"%s":0'), None),
    "unknown-attributes": (ATTRIBUTES, numbered('"_%s":0'), None),
    "unknown-extras": (EXTRAS % "{%s}", numbered('"%s":0'), None),
    "shortest-root": (ROOT, same('"":0'), None),
    "shortest-node": (NODE, same('"":0'), None),
    "shortest-ior": (IOR, same('"":0'), None),
    # the same in falling order
    "falling-root": (ROOT, falling('"%s":0'), None),
    "falling-extensions": (MATERIAL, falling('"%s":0'), None),
    "falling-glossiness": (GLOSSINESS, falling('"%s":0'), None),
    "falling-attributes": (ATTRIBUTES, falling('"_%s":0'), None),
    "falling-extras": (EXTRAS % "{%s}", falling('"%s":0'), None),
    "falling-rows": (list_of("nodes"), same(NODE_BACKWARDS), None),
    # texts with escapes, and numbers of many digits
    "escaped-texts": (EXTRAS % "[%s]", same(r'"\n"'), None),
    "escaped-names": (EXTRAS % "{%s}", numbered(r'"\n%s":0'), None),
    "escaped-text": (EXTRAS % '["%s"]', same(r"\n\u00e9"), None),
    "long-numbers": (EXTRAS % "[%s]", same("0." + "1234567890" * 80), None),
    # values that nest deep
    "deep-arrays": (EXTRAS % "[%s]", nested("[", "0", "]"), None),
    "deep-objects": (EXTRAS % "[%s]", nested('{"":', "0", "}"), None),
    # objects and arrays without members
    "empty-arrays": (EXTRAS % "[%s]", same("[]"), None),
    "empty-extras": (EXTRAS % "[%s]", same("{}"), None),
    "empty-members": (EXTRAS % "[%s]", same('{"":0}'), None),
    "empty-targets": (PRIMITIVE % '"attributes":{},"targets":[%s]', same("{}"), None),
    "empty-primitives": ('{"meshes":[{"primitives":[%s]}],' + HEAD + "}", same('{"attributes":{}}'), None),
    "empty-animations": (list_of("animations"), same("{}"), None),
    "empty-buffers": (list_of("buffers"), same("{}"), None),
    "empty-images": (list_of("images"), same("{}"), None),
    "empty-samplers": (list_of("samplers"), same("{}"), None),
    "empty-scenes": (list_of("scenes"), same("{}"), None),
    "empty-skins": (list_of("skins"), same("{}"), None),
    "empty-textures": (list_of("textures"), same("{}"), None),
    "empty-nodes": (list_of("nodes"), same("{}"), None),
    "empty-materials": (list_of("materials"), same("{}"), None),
}

# The same of two lists, each of half the bytes: what is around them, and how the k-th item of each is written.
MESHES_AND_NODES = '{"meshes":[{"primitives":[%s]},{"primitives":[]}],"nodes":[%s],' + HEAD + "}"
PAIRS = {
    "primitives-nodes": (MESHES_AND_NODES, same('{"attributes":{"JOINTS_0":0}}'), same('{"mesh":0}')),
    "attributes-nodes": (MESHES_AND_NODES.replace("%s", '{"attributes":{%s}}', 1), numbered('"_%s":0'), same('{"mesh":0}')),
    "skins-nodes": ('{"skins":[%s],"nodes":[%s],' + HEAD + "}", same('{"joints":[0]}'), same("{}")),
}


def items_of(item, size):
    """So many bytes of items, and one item at least."""
    parts = [item(0)]
    left = size - len(parts[0])
    while True:
        part = item(len(parts))
        left -= len(part) + 1
        if left < 0:
            return ",".join(parts)
        parts.append(part)


def pair_of(name, size):
    """The document of a pair of lists, of at most `size` bytes if two items fit in."""
    around, first, second = PAIRS[name]
    half = (size - len(around)) // 2
    return around % (items_of(first, half), items_of(second, half))


def document_of(name, size):
    """The document of a shape, of at most `size` bytes if one item fits in."""
    if name in PAIRS:
        return pair_of(name, size)
    around, item, first = SHAPES[name]
    front, back = around.split("%s")
    left = size - len(front) - len(back)
    parts = [] if first is None else [first]
    left -= sum(len(part) + 1 for part in parts)
    k = 0
    while True:
        part = item(k)
        left -= len(part) + 1
        if left < 0 and k > 0:
            return front + ",".join(parts) + back
        parts.append(part)
        k += 1


if __name__ == "__main__":
    parser = parser_of(__doc__)
    parser.add_argument("--pairs", action="store_true", help="print the documents of two lists")
    print("\n".join(PAIRS if parser.parse_args().pairs else SHAPES))
