"""What gltf_corpus reads of documents that are built by calls, and of reports in other ways than a
run gives them. `gen_cases.py` writes both.

A case of `REPORTS` has a document and one of these: rules, another document against which it is
validated, or the number of steps from which its reports are counted. Without one its reports come
with pointers and codes. `gives` lists what may come.
A case of `BUILT` has calls, each with what it gives, and what the document is written as in the
end. It begins as a new document, or as `start`. With `held` it is held without reports, by rules;
`held` is "yes", or the report for which the document is not held.
What is expected is worked out by hand, from docs/SCHEMA.md and what each call promises.
"""
import json

ASSET = '"asset":{"version":"2.0"}'
NEW = "{" + ASSET + "}"


def document(behind="", before=""):
    return "{" + (before + "," if before else "") + ASSET + ("," + behind if behind else "") + "}"


# A document with a texture that names no image, and one whose image is past the end.
WITHOUT_SOURCE = document('"textures":[{}]')
WITH_SOURCE = document('"textures":[{"source":0}]')
# A document that requires an extension for images of another format, and one of the standard ones.
OTHER_FORMAT = document('"extensionsRequired":["KHR_texture_basisu"]')
REQUIRES_LIGHTS = document('"extensionsRequired":["KHR_lights_punctual"]')
# A document with one report: an accessor without a view.
FAULTY = document('"accessors":[{"count":1,"componentType":5126,"type":"VEC3"}]')
FAULTY_WRITTEN = document(before='"accessors":[{"componentType":5126,"count":1,"type":"VEC3"}]')
NO_VIEW = "accessors[0].bufferView: Missing data"
# An accessor without a view, and of a type that isn't listed.
NO_VIEW_AND_NO_TYPE = document('"accessors":[{"count":1,"componentType":5126,"type":"foo"}]')
# A document of six reports.
SIX = document(
    '"accessors":[{"count":1,"componentType":5126,"type":"VEC3","max":[1,2]}],"meshes":[{'
    '"primitives":[{"attributes":{"FOO":9,"POSITION":0,"_x":9}}]}]')
ATTRIBUTES = "meshes[0].primitives[0].attributes"
UNKNOWN = ATTRIBUTES + '["<invalid semantic name>"]'
SIX_LINES = (
    NO_VIEW,
    ATTRIBUTES + '["_x"]: Index out of bounds',
    UNKNOWN + ": Invalid value",
    UNKNOWN + ": Index out of bounds",
    ATTRIBUTES + '["POSITION"].min: Missing data',
    ATTRIBUTES + '["POSITION"].max: Invalid value',
)
# Against a document without accessors: the bounds of the positions are in an accessor.
SIX_AGAINST_NEW = (
    NO_VIEW,
    ATTRIBUTES + '["_x"]: Index out of bounds',
    ATTRIBUTES + '["POSITION"]: Index out of bounds',
    UNKNOWN + ": Invalid value",
    UNKNOWN + ": Index out of bounds",
)
VIEW_OF_ITS_BUFFER = document(
    '"buffers":[{"byteLength":4}],"bufferViews":[{"buffer":0,"byteLength":4}]')
NO_BUFFER = "bufferViews[0].buffer: Index out of bounds"
# An accessor without a view, and an own attribute without an accessor.
OWN_ATTRIBUTE = document(
    '"accessors":[{"count":1,"componentType":5126,"type":"VEC3","min":[0,0,0],"max":[0,0,0]}],'
    '"meshes":[{"primitives":[{"attributes":{"POSITION":0,"_A/B~C":1}}]}]')
# A primitive without positions, and with a mapping, which is deeper.
MAPPED = document(
    '"meshes":[{"primitives":[{"attributes":{},"extensions":{"KHR_materials_variants":{"mappings":'
    '[{"material":0,"variants":[0]}]}}}]}]')


def lines(*reports):
    return "".join(report + "\n" for report in reports)


def place(step_count):
    return "".join(f"[{n}]" for n in range(step_count))


def reports():
    for rules, text, gives in (
        ("standard", NEW, ()),
        ("standard", SIX, SIX_LINES),
        ("standard", NO_VIEW_AND_NO_TYPE, ("accessors[0].type: Invalid value", NO_VIEW)),
        ("empty", WITHOUT_SOURCE, ()),
        ("empty", WITH_SOURCE, ("textures[0].source: Index out of bounds",)),
        ("full", WITHOUT_SOURCE, ("textures[0].source: Missing data",)),
        ("full", OTHER_FORMAT, ()),
        ("bare", REQUIRES_LIGHTS,
         ('extensionsRequired[0] = "KHR_lights_punctual": Unsupported extension',)),
    ):
        output = lines(*gives) + "status 1" if gives else "clean\nstatus 0"
        yield {"text": text, "rules": rules, "gives": [output]}
    yield {"text": VIEW_OF_ITS_BUFFER, "against": NEW, "gives": [lines(NO_BUFFER)]}
    yield {"text": SIX, "against": NEW, "gives": [lines(*SIX_AGAINST_NEW)]}
    yield {"text": OWN_ATTRIBUTE, "gives": [lines(
        "/accessors/0/bufferView: missing",
        "/meshes/0/primitives/0/attributes/_A~1B~0C: index-out-of-bounds",
        "Ok(())",
    )]}
    for text in (FAULTY, MAPPED):
        yield {"text": text, "steps": 6, "gives": [f"Ok(()), 1 at {place(6)}"]}
    # It stops only where a path may have no room for the deepest place of a document, wherever its
    # faults are.
    yield {"text": FAULTY, "steps": 7, "gives": [
        f"Ok(()), 1 at {place(7)}",
        f"Err(StepsFull), 0 at {place(7)}",
        f"Err(StepsFull), 1 at {place(7)}",
    ]}
    yield {"text": FAULTY, "steps": 16, "gives": [f"Err(StepsFull), 0 at {place(16)}"]}


def call(name, gives, list_=None, **more):
    where = {"list": list_} if list_ else {}
    return {"call": name, **where, **more, "gives": gives}


def push(list_, item, gives, name="push"):
    return call(name, gives, list_, item=item)


def case(title, calls, becomes, **more):
    return {"title": title, **more, "calls": calls, "becomes": becomes}


POINT, SPOT, VARIANT = {"type": "point"}, {"type": "spot"}, {"name": "a"}
BUFFER, VIEW = {"byteLength": 4}, {"buffer": 0, "byteLength": 4}
LIGHTS, VARIANTS = "KHR_lights_punctual", "KHR_materials_variants"
MISSING, NO_ITEM = "Missing data", "Index out of bounds"

# An item of each list, with what it names before it: what is pushed, and what is written of it.
ITEMS = [
    ("buffers", '{"byteLength":4}'),
    ("bufferViews", '{"buffer":0,"byteLength":4}'),
    ("accessors", '{"bufferView":0,"componentType":5126,"count":1,"max":[1,1,1],"min":[0,0,0],'
     '"type":"VEC3"}'),
    ("images", '{"bufferView":0}'),
    ("samplers", '{"wrapS":10497,"wrapT":10497}'),
    ("textures", '{"sampler":0,"source":0}'),
    ("materials", '{"alphaMode":"OPAQUE","doubleSided":false,"emissiveTexture":{"index":0,'
     '"texCoord":0},"pbrMetallicRoughness":{}}'),
    ("meshes", '{"primitives":[{"attributes":{"POSITION":0},"material":0}]}'),
    ("lights", '{"type":"point"}'),
    ("variants", '{"name":"a"}'),
    ("cameras", '{"perspective":{"yfov":1,"znear":1},"type":"perspective"}'),
    ("nodes", '{"camera":0,"mesh":0}'),
    ("skins", '{"joints":[0]}'),
    ("scenes", '{"nodes":[0]}'),
    ("animations", '{"channels":[{"sampler":0,"target":{"node":0,"path":"scale"}}],"samplers":'
     '[{"input":0,"interpolation":"LINEAR","output":0}]}'),
]


def written(members):
    """A document's text: the members of each object in the order of their names."""
    whole = {"asset": {"version": "2.0"}, **members}
    return json.dumps(whole, separators=(",", ":"), sort_keys=True, ensure_ascii=False)


def written_items(items):
    """The text of a document that lists an item of each of these lists."""
    members, extensions = {}, {}
    for name, text in items:
        if name == "lights":
            extensions[LIGHTS] = {"lights": [json.loads(text)]}
        elif name == "variants":
            extensions[VARIANTS] = {"variants": [json.loads(text)]}
        else:
            members[name] = [json.loads(text)]
    return written({**members, "extensions": extensions} if extensions else members)


def listed():
    """Lists, and what is in them."""
    items = dict(ITEMS)
    calls = [one for name, text in items.items() for one in (
        call("count", "1", name),
        call("get", text, name, number=0),
        call("get", "none", name, number=1),
    )]
    yield case("one item in each list", calls, written_items(ITEMS), start=written_items(ITEMS))
    calls = [one for name in items for one in (
        call("count", "0", name),
        call("get", "none", name, number=0),
    )]
    yield case("no item in each list", calls, NEW)
    yield case("a list that is lent", [
        push("nodes", {}, "1", "push lent"),
        call("count", "1", "nodes"),
        call("get", "{}", "nodes", number=0),
        call("get", "none", "nodes", number=1),
    ], written({"nodes": [{}]}))


def pushed():
    """Pushes onto a document, and pushes that are taken back."""
    calls = [push(name, json.loads(text), "0") for name, text in ITEMS]
    yield case("an item of each type", calls, written_items(ITEMS))
    yield case("items in order", [
        push("bufferViews", VIEW, "0"),
        push("bufferViews", VIEW, "1"),
        push("lights", POINT, "0"),
        push("lights", POINT, "1"),
        push("variants", VARIANT, "0"),
        push("variants", VARIANT, "1"),
    ], written({
        "bufferViews": [VIEW] * 2,
        "extensions": {LIGHTS: {"lights": [POINT] * 2}, VARIANTS: {"variants": [VARIANT] * 2}},
    }))
    yield case("the first light makes its extension", [
        call("count", "0", "lights"),
        call("get", "none", "lights", number=0),
        call("count lent", "none", "lights"),
        push("lights", POINT, "0"),
        call("count", "1", "lights"),
        call("get", '{"type":"point"}', "lights", number=0),
        call("get", "none", "lights", number=1),
        call("count lent", "1", "lights"),
    ], written({"extensions": {LIGHTS: {"lights": [POINT]}}}))
    beside = {"EXT_x": 1, VARIANTS: {"variants": [VARIANT]}}
    yield case("a light beside other extensions", [push("lights", POINT, "0")],
               written({"extensions": {**beside, LIGHTS: {"lights": [POINT]}}}),
               start=written({"extensions": beside}))
    beside = {"EXT_x": 1, LIGHTS: {"lights": [POINT]}}
    yield case("a variant beside other extensions", [push("variants", {"name": "b"}, "0")],
               written({"extensions": {**beside, VARIANTS: {"variants": [{"name": "b"}]}}}),
               start=written({"extensions": beside}))
    yield case("a view is reported as in its document", [
        push("bufferViews", VIEW, "0"),
        call("reports", NO_BUFFER + "\n"),
        call("reports", NO_BUFFER + "\n", "bufferViews", number=0),
    ], written({"bufferViews": [VIEW]}))
    empty = written({"extensions": {LIGHTS: {"lights": []}, VARIANTS: {"variants": []}}})
    for name, start, mark, text in (
        ("lights", NEW, "NoExtensions", '{"type":"point"}'),
        ("lights", empty, "Listed", '{"type":"point"}'),
        ("variants", document('"extensions":{}'), "NoObject", '{"name":"a"}'),
        ("buffers", NEW, "Listed", '{"byteLength":4}'),
    ):
        yield case(f"a push onto {name} is taken back: {mark}", [
            call("mark", mark, name),
            push(name, json.loads(text), "0"),
            call("undo", text, name, mark=mark),
        ], start, start=start)
    for name, start, mark in (("buffers", NEW, "Listed"), ("lights", empty, "NoObject")):
        yield case(f"nothing is taken back from {name}: {mark}",
                   [call("undo", "none", name, mark=mark)], start, start=start)


def refusal(why, item):
    return f"{why}, and {item} comes back"


def held():
    """Documents that are held without reports."""
    yield case("a new document", [call("write", NEW)], NEW, held="yes")
    yield case("a new document by rules", [call("write", NEW)], NEW, held="yes", rules="empty")
    yield case("a document without reports", [call("write", NEW)], NEW, held="yes", start=NEW)
    yield case("a document with a report", [], FAULTY_WRITTEN, held=NO_VIEW, start=FAULTY)
    calls = [push(name, json.loads(text), "0") for name, text in ITEMS]
    yield case("an item of each type", calls, written_items(ITEMS), held="yes")
    view = '{"buffer":1,"byteLength":4}'
    yield case("views name buffers", [
        push("buffers", BUFFER, "0"),
        push("bufferViews", VIEW, "0"),
        push("bufferViews", json.loads(view), refusal(NO_ITEM, view)),
    ], written({"bufferViews": [VIEW], "buffers": [BUFFER]}), held="yes")
    yield case("a faulty light leaves nothing",
               [push("lights", SPOT, refusal(MISSING, '{"type":"spot"}'))], NEW, held="yes")
    later = '{"children":[2]}'
    yield case("nodes name no later ones", [
        push("nodes", {"children": [0]}, "0"),
        push("nodes", json.loads(later), refusal(NO_ITEM, later)),
    ], written({"nodes": [{"children": [0]}]}), held="yes")
    # Neither its type is known nor has it a projection: the first report is that of the type.
    yield case("a camera of no known type",
               [push("cameras", {"type": "other"}, refusal("Invalid value", "invalid item"))], NEW,
               held="yes")
    for rules, gives in (("empty", "0"), (None, refusal(MISSING, "{}"))):
        more = {"rules": rules} if rules else {}
        yield case(f"a texture without an image by rules: {rules}",
                   [push("textures", {"source": 4294967295}, gives)],
                   written({"textures": [{}]} if rules else {}), held="yes", **more)
    yield case("a node with a report", [
        push("nodes", {}, "0", "push or report"),
        push("nodes", {"children": [0, 2]},
             refusal("nodes[1].children[1]: Index out of bounds", '{"children":[0,2]}'),
             "push or report"),
    ], written({"nodes": [{}]}), held="yes")
    yield case("a light with a report", [
        push("lights", POINT, "0", "push or report"),
        push("lights", SPOT,
             refusal("extensions.KHR_lights_punctual.lights[1].spot: Missing data",
                     '{"type":"spot"}'),
             "push or report"),
    ], written({"extensions": {LIGHTS: {"lights": [POINT]}}}), held="yes")
    yield case("the scene that is shown", [
        call("set scene", NO_ITEM, number=0),
        call("write", NEW),
        push("scenes", {}, "0"),
        call("set scene", "done", number=0),
        call("write", written({"scene": 0, "scenes": [{}]})),
        call("set scene", "done"),
    ], written({"scenes": [{}]}), held="yes")
    ior = "KHR_materials_ior"
    yield case("other members", [
        call("set asset", "done", item={"version": "2.1", "generator": "me"}),
        call("set extras", "done", item=[1]),
        call("set used", "done", names=[ior]),
        call("push used", "done", text="EXT_other"),
        call("require", "done", names=[ior]),
    ], written({
        "asset": {"version": "2.1", "generator": "me"},
        "extras": [1],
        "extensionsUsed": [ior, "EXT_other"],
        "extensionsRequired": [ior],
    }), held="yes")
    yield case("an extension that isn't enabled", [
        call("require", 'extensionsRequired[1] = "EXT_other": Unsupported extension',
             names=[ior, "EXT_other"]),
    ], NEW, held="yes")
    yield from replaced()


def replaced():
    """Items that take the places of others."""
    bounded = {"bufferView": 0, "componentType": 5126, "count": 1, "max": [1, 1, 1],
               "min": [0, 0, 0], "type": "VEC3"}
    members = {
        "accessors": [bounded],
        "buffers": [{"byteLength": 12}],
        "bufferViews": [{"buffer": 0, "byteLength": 12}],
        "extensions": {LIGHTS: {"lights": [POINT]}},
        "meshes": [{"primitives": [{"attributes": {"POSITION": 0}}]}],
        "nodes": [{"mesh": 0}, {"name": "b"}],
    }
    full, sun = written(members), {"type": "directional"}
    node = {"children": [1], "name": "c"}
    yield case("items are found", [
        call("get", '{"name":"b"}', "nodes", number=1),
        call("get", "none", "nodes", number=2),
    ], full, held="yes", start=full)
    yield case("items take the places of others", [
        call("replace", '{"name":"b"}', "nodes", number=1, item=node),
        call("replace", '{"type":"point"}', "lights", number=0, item=sun),
    ], written({
        **members,
        "extensions": {LIGHTS: {"lights": [sun]}},
        "nodes": [{"mesh": 0}, node],
    }), held="yes", start=full)
    unbounded = '{"bufferView":0,"componentType":5126,"count":1,"type":"VEC3"}'
    report = 'meshes[0].primitives[0].attributes["POSITION"].min: Missing data'
    yield case("an item that a mesh needs", [
        call("replace", refusal(report, unbounded), "accessors", number=0,
             item=json.loads(unbounded)),
        call("replace", refusal(NO_ITEM, unbounded), "accessors", number=1,
             item=json.loads(unbounded)),
    ], full, held="yes", start=full)


REPORTS = [*reports()]
BUILT = [*listed(), *pushed(), *held()]
