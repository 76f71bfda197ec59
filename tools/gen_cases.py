#!/usr/bin/env python3
"""gen_cases.py: documents that gltf_corpus reads and writes in two ways, and what becomes of them.

It writes cases.jsonl, reports.jsonl and built.jsonl in crates/gltf_corpus_run/data, a case a line,
and their numbers into the program's stdout, or compares all (`--check`). The latter two files are
those of built_cases.py. A case of the first has a title, a text or bytes, and what becomes of them:
the line that the document is written as, or the error. A case may also have members that objects
are to keep in `others`, under the names of kept.rt in gltf_corpus, and extras, and the place that
the table refuses, as a path and as a JSON pointer.
What is expected is worked out by hand or by Python's json, never taken from the program.
"""
import json

from built_cases import BUILT, FAULTY, FAULTY_WRITTEN, MAPPED, REPORTS, SIX
from corpus import DATA, STDOUT, printed, with_parts
from settle import is_check, settle

NO_JSON = "not JSON"
NO_DOCUMENT = "not a glTF document"
INVALID = "invalid item"

ASSET = '"asset":{"version":"2.0"}'
LEAST = "{" + ASSET + "}"

# What the program prints of documents in front of the line that is written here.
FIRST_LINE = "# objects: as expected\n"

CASES = []


def case(title, text, becomes, **more):
    """A case; without an outcome the text is written as it is."""
    key = "text" if isinstance(text, str) else "bytes"
    text = text if isinstance(text, str) else list(text)
    becomes = text if becomes is None else becomes
    CASES.append({"title": title, key: text, "becomes": becomes, **more})


def document(before="", behind=""):
    """The least document with members before and behind its asset."""
    return "{" + before + ("," if before else "") + ASSET + ("," if behind else "") + behind + "}"


def member(title, front, value, end, written=None, before=False):
    """A document with a value in a member, and what is written of the value, or the error."""
    def whole(text):
        text = front + text + end
        return document(before=text) if before else document(behind=text)

    if written in (NO_JSON, NO_DOCUMENT, INVALID):
        becomes = written
    else:
        becomes = whole(value if written is None else written)
    case(f"{title}: {value}", whole(value), becomes)


# Any number, and what it is written as: a float by the shortest digits that read back.
ANY_NUMBERS = [
    *("0", "1", "4294967295", "4294967296", "9007199254740991", "9007199254740992"),
    *("9007199254740993", "9223372036854775807", "9223372036854775808"),
    *("18446744073709551615", "-1", "-9223372036854775807", "-9223372036854775808"),
    *("0.0", "0.1", "-0.1", "1.0", "1.5", "-0.0", "5e-324", "1e-6", "1000000000000000.0"),
    ("18446744073709551616", "1.8446744073709552e+19"),
    ("-9223372036854775809", "-9.223372036854776e+18"),
    ("100000000000000000000000000000000000000000", "1e+41"),
    ("1e308", "1e+308"),
    ("-1E308", "-1e+308"),
    ("1e+308", "1e+308"),
    ("1.7976931348623157e308", "1.7976931348623157e+308"),
    ("1.7976931348623158e308", "1.7976931348623157e+308"),
    ("2.2250738585072014e-308", "2.2250738585072014e-308"),
    ("2.2250738585072011e-308", "2.225073858507201e-308"),
    ("3e-324", "5e-324"),
    ("2e-324", "0.0"),
    ("1e-400", "0.0"),
    ("-1e-400", "-0.0"),
    ("0e999999999999", "0.0"),
    ("0.0e-999999999999999999999", "0.0"),
    ("1e-99999999999999999999", "0.0"),
    ("-0", "-0.0"),
    ("-0e0", "-0.0"),
    ("0e0", "0.0"),
    ("1e0", "1.0"),
    ("1E+2", "100.0"),
    ("10e-1", "1.0"),
    ("0.10", "0.1"),
    ("1e15", "1000000000000000.0"),
    ("1e16", "1e+16"),
    ("123456789012345680000.0", "1.2345678901234568e+20"),
    ("0.00001", "0.00001"),
    ("0.000001", "1e-6"),
    ("0.1000000000000000055511151231257827021181583404541015625", "0.1"),
    ("0.30000000000000004", "0.30000000000000004"),
    ("0." + "0" * 400 + "1", "0.0"),
    ("1" + "0" * 308, "1e+308"),
]

NO_NUMBERS = [
    *("1e309", "-1e309", "1e400", "1.7976931348623159e308", "1e99999999999999999999"),
    *("1" + "0" * 309, "01", "-01", "00", "1.", ".5", "-.5", "+1", "-", "--1", "1e", "1e+", "1e-"),
    *("1.e1", "0x10", "NaN", "Infinity", "-Infinity", "1_000", "1 2", "1e1.5", "1f"),
]


def numbers():
    for pair in ANY_NUMBERS:
        value, written = pair if isinstance(pair, tuple) else (pair, pair)
        member("any number", '"extras":', value, "", written)
        member("a number", '"nodes":[{"weights":[', value, "]}]", written)
    for value in NO_NUMBERS:
        member("no number", '"extras":', value, "", NO_JSON)
        member("no number in a weight", '"nodes":[{"weights":[', value, "]}]", NO_JSON)
        member("no number in what is dropped", '"zz":', value, "", NO_JSON)
    wholes = {
        "64 bits": ('"buffers":[{"byteLength":', "}]", 2**64),
        "32 bits": ('"nodes":[{"camera":', "}]", 2**32),
        "an item's number": ('"scene":', "", 2**32),
    }
    for title, (front, end, bound) in wholes.items():
        for value in (0, 1, 2**31, 2**32 - 1, 2**32, 2**53, 2**63, 2**64 - 1, 2**64, -1, -(2**63)):
            written = str(value) if 0 <= value < bound else NO_DOCUMENT
            member(title, front, str(value), end, written)
        for value in ("-0", "1.0", "1e0", "0.1", "1e308", "1e-400", '"1"', "true", "[1]", "{}"):
            member(title, front, value, end, NO_DOCUMENT)
        member(title, front, "1e309", end, NO_JSON)
    choice = '"samplers":[{"magFilter":'
    ends = ',"wrapS":10497,"wrapT":10497}]'
    for value, written in (
        *(("9728", None), ("9727", INVALID), (str(2**32 + 9728), INVALID)),
        *((str(2**64 - 1), INVALID), (str(2**64), NO_DOCUMENT), ("-9728", NO_DOCUMENT)),
        *(("9728.0", NO_DOCUMENT), ("9728e0", NO_DOCUMENT), ("-0", NO_DOCUMENT)),
        *(('"9728"', NO_DOCUMENT), ("0", INVALID)),
    ):
        member("a choice", choice, value, ends, written)


def names_twice():
    """Of members with one name the last one's value stays."""
    for title, text, becomes in (
        ("scene", document(behind='"scene":0,"scene":1'), document(behind='"scene":1')),
        ("scene, then null", document(behind='"scene":0,"scene":null'), LEAST),
        ("null, then scene", document(behind='"scene":null,"scene":1'),
         document(behind='"scene":1')),
        ("a text, then scene", document(behind='"scene":"x","scene":1'),
         document(behind='"scene":1')),
        ("scene, then a text", document(behind='"scene":1,"scene":"x"'), NO_DOCUMENT),
        ("no asset, then asset", '{"asset":1,' + ASSET + "}", LEAST),
        ("asset, then none", "{" + ASSET + ',"asset":null}', NO_DOCUMENT),
        ("asset, with others between", "{" + ASSET + ',"scene":3,"zz":1,"asset":{"version":"3"}}',
         '{"asset":{"version":"3"},"scene":3}'),
        ("version", '{"asset":{"version":1,"version":"2.0"}}', LEAST),
        ("version, then a number", '{"asset":{"version":"2.0","version":1}}', NO_DOCUMENT),
        ("list, then an empty one", document(behind='"nodes":[{"name":"a"}],"nodes":[]'), LEAST),
        ("list that is refused, then one", document(behind='"nodes":[1],"nodes":[{}]'),
         document(behind='"nodes":[{}]')),
        ("list, then one that is refused", document(behind='"nodes":[{}],"nodes":[{},1]'),
         NO_DOCUMENT),
        ("list, then null", document(behind='"nodes":[{}],"nodes":null'), NO_DOCUMENT),
        ("null, then a list", document(behind='"nodes":null,"nodes":[{}]'),
         document(behind='"nodes":[{}]')),
        ("list, once with an escape",
         document(behind='"nodes":[{}],"n\\u006fdes":[{"name":"a"}]'),
         document(behind='"nodes":[{"name":"a"}]')),
        ("list, with another between",
         document(behind='"nodes":[{}],"scenes":[{}],"nodes":[{"name":"a"}]'),
         document(behind='"nodes":[{"name":"a"}],"scenes":[{}]')),
        ("list, then no JSON", document(behind='"nodes":[1],"nodes":[{}],"zz":01'), NO_JSON),
        ("an item's member", document(behind='"buffers":[{"byteLength":1,"byteLength":2}]'),
         document(behind='"buffers":[{"byteLength":2}]')),
        ("an item's member, three times",
         document(behind='"buffers":[{"byteLength":1,"name":"a","byteLength":2,"byteLength":3}]'),
         document(behind='"buffers":[{"byteLength":3,"name":"a"}]')),
        ("an item's member, once with an escape",
         document(behind='"buffers":[{"byteLength":1,"byte\\u004cength":2}]'),
         document(behind='"buffers":[{"byteLength":2}]')),
        ("an item's member, first with an escape",
         document(behind='"buffers":[{"\\u0062yteLength":1,"byteLength":2}]'),
         document(behind='"buffers":[{"byteLength":2}]')),
        ("what is dropped", document(behind='"zz":1,"zz":2'), LEAST),
        ("what is kept", document(behind='"extensions":{"X":1,"A":0,"X":2}'),
         document(behind='"extensions":{"A":0,"X":2}')),
        ("what is kept, then null", document(behind='"extensions":{"X":1,"X":null}'),
         document(behind='"extensions":{"X":null}')),
        ("what is kept, once with an escape",
         document(behind='"extensions":{"X":1,"\\u0058":2,"Y":{"a":1,"a":2}}'),
         document(behind='"extensions":{"X":2,"Y":{"a":2}}')),
        ("an extension",
         document(behind='"extensions":{"KHR_lights_punctual":1,'
                  '"KHR_lights_punctual":{"lights":[]}}'),
         document(behind='"extensions":{"KHR_lights_punctual":{"lights":[]}}')),
        ("an extension, then null",
         document(behind='"extensions":{"KHR_lights_punctual":{"lights":[]},'
                  '"KHR_lights_punctual":null}'),
         document(behind='"extensions":{}')),
        ("extensions", document(behind='"extensions":{"X":1},"extensions":{"Y":1}'),
         document(behind='"extensions":{"Y":1}')),
        ("extras", document(behind='"extras":{"a":1,"b":2,"a":{"c":1,"c":[]}}'),
         document(behind='"extras":{"a":{"c":[]},"b":2}')),
        ("empty names", document(behind='"extras":{"":1,"":2},"":3,"":4'),
         document(behind='"extras":{"":2}')),
    ):
        case(f"twice: {title}", text, becomes)


LISTS = [
    *("accessors", "animations", "bufferViews", "buffers", "cameras", "extensionsRequired"),
    *("extensionsUsed", "images", "materials", "meshes", "nodes", "samplers", "scenes", "skins"),
    "textures",
]


def lists():
    for name in LISTS:
        for value in ("null", "{}", "1", '"a"', "true", "[null]", "[1]", "[[]]"):
            text = document(behind=f'"{name}":{value}')
            at = f"{name}[0]" if value[0] == "[" else name
            pointer = f"/{name}/0" if value[0] == "[" else f"/{name}"
            case(f"no {name}: {value}", text, NO_DOCUMENT, at=[at, pointer])
        case(f"no items of {name}", document(behind=f'"{name}":[]'), LEAST)
        for value in ("[", "[1", "[{]", "[{},]", "[,{}]", "{]"):
            case(f"{name}, and no JSON: {value}", document(behind=f'"{name}":{value}'), NO_JSON)
    members = [
        *('"buffers":[{"byteLength":1},{"byteLength":2}]', '"meshes":[{"primitives":[]}]'),
        *('"nodes":[{},{"name":"a"},{}]', '"scenes":[{},{}]', '"skins":[{"joints":[0]}]'),
        '"textures":[{"source":1},{"source":0}]',
    ]
    due = document(behind=",".join(members))
    case("lists in another order", document(before=",".join(reversed(members))), due)
    case("lists in order", document(before=",".join(members)), due)


def places():
    """The place is in the first row that refuses its member, in the table's order."""
    for text, path, pointer in (
        *(("[]", "", ""), ("null", "", ""), ("{}", "asset", "/asset")),
        ('{"asset":{}}', "asset.version", "/asset/version"),
        ('{"asset":null}', "asset", "/asset"),
        (document(behind='"scene":-1'), "scene", "/scene"),
        (document(behind='"nodes":[{},{"mesh":-1}]'), "nodes[1].mesh", "/nodes/1/mesh"),
        (document(behind='"nodes":[{"matrix":[1,2]}]'), "nodes[0].matrix", "/nodes/0/matrix"),
        (document(behind='"nodes":[{"children":[0,"a"]}]'), "nodes[0].children[1]",
         "/nodes/0/children/1"),
        (document(behind='"nodes":[1],"accessors":[{}]'), "accessors[0].count",
         "/accessors/0/count"),
        (document(behind='"bufferViews":[{"byteLength":"a","buffer":"b"}]'),
         "bufferViews[0].buffer", "/bufferViews/0/buffer"),
        (document(behind='"nodes":[1],"nodes":[{},2,3]'), "nodes[1]", "/nodes/1"),
        (document(behind='"extensionsUsed":["a",1]'), "extensionsUsed[1]", "/extensionsUsed/1"),
        (document(behind='"nodes":[{"matrix":[1,2,3,"a",4]}]'), "nodes[0].matrix[3]",
         "/nodes/0/matrix/3"),
        (document(behind='"nodes":[{"matrix":{}}]'), "nodes[0].matrix", "/nodes/0/matrix"),
        (primitive('"POSITION":"a"'), "meshes[0].primitives[0].attributes.POSITION",
         "/meshes/0/primitives/0/attributes/POSITION"),
        (primitive('"POSITION":0,"NORMAL":-1,"JOINTS_0":1'),
         "meshes[0].primitives[0].attributes.NORMAL",
         "/meshes/0/primitives/0/attributes/NORMAL"),
        (primitive('"a/~":4294967296,"z":null'), "meshes[0].primitives[0].attributes.a/~",
         "/meshes/0/primitives/0/attributes/a~1~0"),
        (document(behind='"meshes":[{"primitives":[{"attributes":[]}]}]'),
         "meshes[0].primitives[0].attributes", "/meshes/0/primitives/0/attributes"),
        (document(behind='"extensions":{"KHR_lights_punctual":{"lights":[{"type":"point"},{}]}}'),
         "extensions.KHR_lights_punctual.lights[1].type",
         "/extensions/KHR_lights_punctual/lights/1/type"),
    ):
        case(f"place: {text}", text, NO_DOCUMENT, at=[path, pointer])


def primitive(attributes):
    return document(behind='"meshes":[{"primitives":[{"attributes":{' + attributes + "}}]}]")


def attributes():
    for found, written in (
        ('"POSITION":0,"POSITION":1', '"POSITION":1'),
        ('"POSITION":"x","POSITION":1', '"POSITION":1'),
        ('"POSITION":1,"POSITION":"x"', NO_DOCUMENT),
        ('"\\u0050OSITION":0', '"POSITION":0'),
        ('"POSITION":0,"\\u0050OSITION":1', '"POSITION":1'),
        ('"COLOR_0":0,"COLOR_00":1', '"COLOR_0":1'),
        ('"COLOR_00":1,"COLOR_0":0', '"COLOR_0":1'),
        ('"COLOR_00":2,"COLOR_+0":1,"COLOR_0":0', '"COLOR_0":2'),
        ('"COLOR_0":0,"COLOR_+0":1', '"COLOR_0":0'),
        ('"COLOR_0":"x","COLOR_00":1', NO_DOCUMENT),
        ('"COLOR_4294967295":1', '"COLOR_4294967295":1'),
        ('"COLOR_4294967296":1', INVALID),
        ('"COLOR_":1', INVALID),
        ('"COLOR_-1":1', INVALID),
        ('"color_0":1', INVALID),
        ('"FOO":1,"BAR":2', INVALID),
        ('"":1', INVALID),
        ('"FOO":-1', NO_DOCUMENT),
        ('"_":1', '"_":1'),
        ('"_\\u0000":1,"_\\ud83d\\ude00":2', '"_\\u0000":1,"_😀":2'),
        ('"_a":1,"_\\u0061":2', '"_a":2'),
        ('"_\\ud83d":1', NO_JSON),
        (
            '"TEXCOORD_2":0,"TEXCOORD_10":1,"COLOR_0":2,"_CUSTOM":3,"POSITION":4',
            '"COLOR_0":2,"POSITION":4,"TEXCOORD_10":1,"TEXCOORD_2":0,"_CUSTOM":3',
        ),
        (
            '"WEIGHTS_1":0,"WEIGHTS_0":1,"JOINTS_9":2,"JOINTS_11":3,"TANGENT":4,"NORMAL":5,'
            '"_z":6,"_Z":7,"_é":8,"COLOR_3":9,"COLOR_20":10,"COLOR_100":11',
            '"COLOR_100":11,"COLOR_20":10,"COLOR_3":9,"JOINTS_11":3,"JOINTS_9":2,"NORMAL":5,'
            '"TANGENT":4,"WEIGHTS_0":1,"WEIGHTS_1":0,"_Z":7,"_z":6,"_é":8',
        ),
        ('"_x":4294967295,"POSITION":4294967295', '"POSITION":4294967295,"_x":4294967295'),
        ('"_x":4294967296', NO_DOCUMENT),
        ("", ""),
    ):
        becomes = written if written in (NO_DOCUMENT, NO_JSON, INVALID) else primitive(written)
        case(f"attributes: {found}", primitive(found), becomes)


# A text as it stands in JSON, and as it is written.
TEXTS = [
    *(("\\u0000", "\\u0000"), ("\\u001F", "\\u001f"), ("\\u007f", "\x7f"), ("\x7f", "\x7f")),
    *(("\\/", "/"), ("/", "/"), ("\\\\", "\\\\"), ('\\"', '\\"'), ("\\u0022", '\\"')),
    *(("\\b\\f\\n\\r\\t", "\\b\\f\\n\\r\\t"),),
    *(("\\u0008\\u000c\\u000A\\u000d\\u0009", "\\b\\f\\n\\r\\t"),),
    *(("\\u000b", "\\u000b"), ("\\u005c", "\\\\"), ("\\u002f", "/"), ("\\u00e9", "é"), ("é", "é")),
    *(("\\ud83d\\ude00", "😀"), ("\\uD83D\\uDE00", "😀"), ("😀", "😀"), ("\\ud800\\udc00", "\U00010000")),
    *(("\\udbff\\udfff", "\U0010ffff"), ("\\uffff", "\uffff"), ("\\ufeff", "\ufeff")),
    *(("\\u2028\\u2029", "\u2028\u2029"), ("\ufeff", "\ufeff"), ("\\ud7ff\\ue000", "\ud7ff\ue000")),
    *(("a\\u0000b", "a\\u0000b"), ("\\\\u0041", "\\\\u0041"), ("", "")),
]

NO_TEXTS = [
    *("\\ud800", "\\udbff", "\\udc00", "\\udfff", "\\ud800\\u0041", "\\ud800x", "\\ud83d\\ud83d"),
    *("\\ude00\\ud83d", "\\ud83d\\ude0", "\\ud83d\\n", "\\u12", "\\u12G4", "\\u+123", "\\U0041"),
    *("\\x41", "\\'", "\\0", "\\a", "\\v", "\\ ", "\n", "\t", "\r", "\x00", "\x01", "\x1f", "\\"),
]


def texts():
    places = {
        "a text": ('"nodes":[{"name":"', '"}]'),
        "any text": ('"extras":"', '"'),
        "a name in extras": ('"extras":{"', '":1}'),
        "a name of an extension": ('"extensions":{"', '":1}'),
        "a text that is kept": ('"extensions":{"X":["', '"]}'),
    }
    for title, (front, end) in places.items():
        for value, written in TEXTS:
            member(title, front, value, end, written)
        for value in NO_TEXTS:
            member(title, front, value, end, NO_JSON)
    for value in NO_TEXTS:
        member("a name that is dropped", '"zz', value, '":1', NO_JSON)
    names = '"extensions":{"\\uffff":1,"\\ud83d\\ude00":2,"é":3,"z":4,"a\\u0000":5,"a":6}'
    ordered = '"extensions":{"a":6,"a\\u0000":5,"z":4,"é":3,"\uffff":1,"😀":2}'
    case("names in the order of bytes", document(behind=names), document(behind=ordered))


def nesting():
    """The document itself is a level, and 127 levels are read."""
    for levels in (126, 127, 128, 129, 200):
        nests = {
            "arrays": ("[" * (levels - 1), "]" * (levels - 1)),
            "objects": ('{"a":' * (levels - 2) + "{", "}" * (levels - 1)),
            "both": ('[{"a":' * 62 + "[" * (levels - 125), "]" * (levels - 125) + "}]" * 62),
        }
        for title, (front, end) in nests.items():
            written = None if levels <= 127 else NO_JSON
            member(f"{levels} levels of {title}", '"extras":', front + end, "", written)
            text = document(behind='"zz":' + front + end)
            case(f"{levels} levels of {title} dropped", text, LEAST if levels <= 127 else NO_JSON)
        inner = "[" * (levels - 2) + "]" * (levels - 2)
        member(f"{levels} levels kept", '"extensions":{"X":', inner, "}", written)
        inner = "[" * (levels - 5) + "]" * (levels - 5)
        member(f"{levels} levels in a node", '"nodes":[{"extensions":{"X":[', inner, "]}}]", written)


def ends():
    for behind in (" ", "\n", "\r\n\t ", "\n\n"):
        case(f"blanks behind: {behind!r}", LEAST + behind, LEAST)
        case(f"blanks before: {behind!r}", behind + LEAST, LEAST)
    blanks = LEAST.replace("{", " {\n").replace(":", "\t:\r").replace("}", " }\n")
    case("blanks everywhere", blanks, LEAST)
    for behind in ("x", "{}", ",", "]", "}", "\x00", "\xa0", "\ufeff", "\f", "1", "null", " /**/"):
        case(f"trailing: {behind!r}", LEAST + behind, NO_JSON)
    for before in ("\ufeff", "\x00", "\xa0", "\f", "x", "[", ",", "//\n", ")]}'\n"):
        case(f"leading: {before!r}", before + LEAST, NO_JSON)
    for text in (
        *("", " ", "\n", "\ufeff", "\x00", "{", "}", "[", "]", '"', '{"', '{"asset', '{"asset"'),
        *('{"asset":', '{"asset":{', "{" + ASSET, "{" + ASSET + ",", "tru", "nul", "fals", "truex"),
        *("True", "None", "{" + ASSET + ",}", "{," + ASSET + "}", "[1,]", "[,1]", "{" + ASSET + ",,}"),
        *("{'asset':1}", "{asset:1}", '{"asset" 1}', '{"asset"=1}', '{"asset":1:2}', "{1:2}"),
        *('{"asset":}', '{"asset","x"}', '["asset":1]', "{]", "[}", '{"a":1]', "[1 2]", '{"a":1 "b":2}'),
        *("{null:1}", "nullnull", "null null", "[null", '{"asset":{"version":"2.0}}'),
        *('"asset":1', "/**/{}", "{/**/}", "{}//"),
    ):
        case(f"no JSON: {text!r}", text, NO_JSON)
    for text in (
        *("null", "true", "false", "0", "1.5", '"asset"', "[]", "[" + LEAST + "]", "{}"),
        *('{"asset":null}', '{"asset":1}', '{"asset":[]}', '{"asset":{}}', '{"Asset":{}}'),
        *('{"asset":{"version":null}}', '{"asset":{"version":2.0}}', '{"asset":{"Version":"2.0"}}'),
        *("-0", " null ", '""'),
    ):
        case(f"no document: {text!r}", text, NO_DOCUMENT)
    for text in (
        *('{"asset":1', '{"asset":1} x', '{"asset":1,"extras":1e309}', "{\"asset\":1,\"x\":\"\\ud800\"}"),
        *('{"scene":"x",' + ASSET + ',"extras":01}', "null x", "[] []"),
    ):
        case(f"neither JSON nor a document: {text!r}", text, NO_JSON)


def no_text():
    wrong = {
        "a byte that is never": b"\xff",
        "another that is never": b"\xc0",
        "an overlong form": b"\xc0\x80",
        "an overlong form of three": b"\xe0\x80\xaf",
        "an overlong form of four": b"\xf0\x80\x80\xaf",
        "a surrogate": b"\xed\xa0\x80",
        "past the end": b"\xf4\x90\x80\x80",
        "an early end": b"\xe2\x82",
        "a continuation alone": b"\x80",
        "Latin 1": b"\xe9",
    }
    places = {
        "in a text": (b'{"asset":{"version":"2.0","generator":"', b'"}}'),
        "in a name": (b'{"asset":{"version":"2.0"},"', b'":1}'),
        "in extras": (b'{"asset":{"version":"2.0"},"extras":["', b'"]}'),
        "between tokens": (b'{"asset":{"version":"2.0"}', b"}"),
        "behind": (LEAST.encode(), b""),
        "before": (b"", LEAST.encode()),
        "in no document": (b'["', b'"]'),
    }
    for title, middle in wrong.items():
        for place, (front, end) in places.items():
            case(f"{title} {place}", front + middle + end, NO_JSON)
    case("a BOM of two bytes", b"\xff\xfe" + LEAST.encode("utf-16-le"), NO_JSON)
    case("UTF-16", LEAST.encode("utf-16-be"), NO_JSON)
    case("the last item", document(behind='"extras":"\U0010ffff"').encode(),
         document(behind='"extras":"\U0010ffff"'))


# A document with each object that keeps members, and rows of it that are written.
KEEPERS = {
    "asset": {"version": "2.0"},
    "extensions": {
        "KHR_lights_punctual": {"lights": [{"type": "point"}]},
        "KHR_materials_variants": {"variants": [{"name": "v"}]},
    },
    "materials": [
        {
            "alphaMode": "OPAQUE",
            "doubleSided": False,
            "extensions": {
                "KHR_materials_ior": {"ior": 2},
                "KHR_materials_pbrSpecularGlossiness": {
                    "diffuseTexture": {
                        "extensions": {"KHR_texture_transform": {"texCoord": None}},
                        "index": 0,
                        "texCoord": 0,
                    },
                    "extras": 1,
                    "glossinessFactor": 0.5,
                },
                "KHR_materials_unlit": {},
            },
            "pbrMetallicRoughness": {},
        }
    ],
    "meshes": [
        {
            "primitives": [
                {
                    "attributes": {"POSITION": 0, "TEXCOORD_10": 2, "TEXCOORD_2": 1},
                    "extensions": {
                        "KHR_materials_variants": {"mappings": [{"material": 0, "variants": [0]}]}
                    },
                }
            ]
        }
    ],
    "nodes": [{"extensions": {"KHR_lights_punctual": {"light": 0}}}],
    "scenes": [{"extensions": {}}],
}

GLOSS = "KHR_materials_pbrSpecularGlossiness"


def copy(value):
    return json.loads(json.dumps(value))


def objects_of(keepers):
    """The objects that keep members, by name, each beside what holds it and under which name."""
    material = keepers["materials"][0]["extensions"]
    primitive_ = keepers["meshes"][0]["primitives"][0]
    return {
        "root": (keepers, "extensions"),
        "node": (keepers["nodes"][0], "extensions"),
        "primitive": (primitive_, "extensions"),
        "material": (keepers["materials"][0], "extensions"),
        "gloss": (material, GLOSS),
        "info": (material.get(GLOSS, {}).get("diffuseTexture"), "extensions"),
        "scene": (keepers["scenes"][0], "extensions"),
    }


def in_byte_order(value):
    if isinstance(value, dict):
        names = sorted(value, key=lambda name: name.encode())
        return {name: in_byte_order(value[name]) for name in names}
    return [in_byte_order(item) for item in value] if isinstance(value, list) else value


def line(value):
    return json.dumps(in_byte_order(value), separators=(",", ":"), ensure_ascii=False)


def kept(title, keepers, others, becomes=None, **more):
    """A document whose objects are to keep members: rows that are written take their places."""
    whole = copy(keepers)
    objects = objects_of(whole)
    for name in ("info", "gloss", "material", "root", "node", "primitive", "scene"):
        holder, member_ = objects[name]
        if holder is not None:
            holder[member_] = {**others.get(name, {}), **holder[member_]}
    if "extras" in more:
        whole["extras"] = more["extras"]
    case(f"kept: {title}", line(keepers), becomes or line(whole), others=others, **more)


def everywhere(members):
    return {name: copy(members) for name in objects_of(copy(KEEPERS))}


VALUES = {
    "A": 18446744073709551615,
    "KHR_": -9223372036854775808,
    "KHR_lights_punctual0": 0.1,
    "KHR_lights_punctuaL": -0.0,
    "KHR_m": 1.0,
    "KHR_materials_ior ": 1e308,
    "KHR_materials_j": "\x00\x1f\x7f\"\\/\b\f\n\r\té😀\u2028",
    "KHR_materials_v": [[], {}, [[None, True, False]], {"b": {"c": [1, "x"]}, "a": 0}],
    "KHR_texture_": None,
    "KHR_texture_transform_": {"TEXCOORD_10": 1, "TEXCOORD_2": 2, "": 3},
    "diffuseG": 1,
    "extrar": {"": ""},
    "h": [],
    "\x00": 1,
    "": "",
    "\"\\": 1,
    "zz": {},
    "é": 1,
    "\uffff": 1,
    "😀": 1,
}

ROWS = {
    "KHR_lights_punctual": 7,
    "KHR_materials_variants": ["x"],
    "KHR_materials_ior": None,
    "KHR_materials_pbrSpecularGlossiness": 1.5,
    "KHR_materials_unlit": "x",
    "KHR_materials_volume": {"zz": 1},
    "KHR_materials_emissive_strength": False,
    "KHR_texture_transform": [1],
    "diffuseFactor": "x",
    "diffuseTexture": 3,
    "extras": {"kept": True},
    "glossinessFactor": "y",
    "specularFactor": None,
}


def invalid_at(title, change):
    whole = copy(KEEPERS)
    change(whole)
    for name, others in (("no members", {}), ("members", everywhere({**VALUES, **ROWS}))):
        kept(f"{title}, beside {name}", whole, others, INVALID)


def keeping():
    bare = copy(KEEPERS)
    for name in ("root", "node", "primitive", "info", "gloss", "material"):
        holder, member_ = objects_of(bare)[name]
        for row in list(holder[member_]):
            if not (name in ("gloss", "material") and row in ("diffuseTexture", GLOSS)):
                del holder[member_][row]
    for title, keepers in (("beside rows", KEEPERS), ("alone", bare)):
        kept(f"nothing {title}", keepers, {})
        kept(f"empty lists {title}", keepers, everywhere({}))
        kept(f"other names {title}", keepers, everywhere(VALUES))
        kept(f"names of rows {title}", keepers, everywhere(ROWS))
        kept(f"both {title}", keepers, everywhere({**VALUES, **ROWS}))
        for name in objects_of(copy(KEEPERS)):
            for members in (VALUES, ROWS, {**ROWS, **VALUES}):
                first = next(iter(members))
                kept(f"in {name} alone, {len(members)} from {first} {title}", keepers, {name: members})
        for pair in (("gloss", "info"), ("material", "info"), ("material", "gloss")):
            others = {name: {**VALUES, **ROWS} for name in pair}
            kept(f"in {pair[0]} and {pair[1]} {title}", keepers, others)
        kept(f"null extras {title}", keepers, everywhere(ROWS), extras=None)
        kept(f"extras {title}", keepers, {}, extras={"b": [1, {"d": 0, "c": -0.0}], "a": "\n"})


def invalid():
    def light(whole):
        whole["extensions"]["KHR_lights_punctual"]["lights"].append({"type": "x"})

    def material(whole):
        whole["materials"][0]["alphaMode"] = "x"

    def key(whole):
        whole["meshes"][0]["primitives"][0]["attributes"]["FOO"] = 0

    def mode(whole):
        whole["meshes"][0]["primitives"][0]["mode"] = 7

    def channel(whole):
        target = {"node": 0, "path": "x"}
        whole["animations"] = [{"channels": [{"sampler": 0, "target": target}]}]

    def camera(whole):
        whole["cameras"] = [{"type": ""}]

    def accessor(whole):
        whole["accessors"] = [{"count": 1, "componentType": 5126, "type": "x"}]

    def sparse(whole):
        indices = {"bufferView": 0, "componentType": 5126}
        sparse_ = {"count": 1, "indices": indices, "values": {"bufferView": 0}}
        accessor_ = {"count": 1, "componentType": 5126, "type": "VEC3", "sparse": sparse_}
        whole["accessors"] = [accessor_]

    def sampler(whole):
        whole["samplers"] = [{"wrapT": 1}]

    for change in (light, material, key, mode, channel, camera, accessor, sparse, sampler):
        invalid_at(f"invalid {change.__name__}", change)

    def two(whole):
        accessor(whole)
        sampler(whole)

    invalid_at("two invalid items", two)


def fronts():
    """No front of a document is JSON, but the whole is."""
    lit = document(behind='"extensions":{"KHR_lights_punctual":{"lights":[{"type":"spot"}]}},'
                   '"nodes":[{"extensions":{"KHR_lights_punctual":{"light":1}}}]')
    for text in (LEAST, lit):
        for length in range(len(text)):
            case(f"front of {length} bytes: {text}", text[:length], NO_JSON)
        case(f"whole: {text}", text, None)


def single():
    """Values of each kind with blanks and escapes, a choice past 32 bits, and a byte of no text."""
    for value, written in (
        *(("null", None), (" true ", "true"), ("-0.5e+3", "-500.0"), ('"a\\u00e9\\n"', '"aé\\n"')),
        *(("[[], {}]", "[[],{}]"), ('{"a": 1, "b": [{"a": 2}], "a": 3}', '{"a":3,"b":[{"a":2}]}')),
    ):
        becomes = LEAST if written is None else document(behind=f'"extras":{written}')
        case(f"a value: {value}", document(behind=f'"extras":{value}'), becomes)
    past = document(behind='"buffers":[{"byteLength":4}],"bufferViews":[{"buffer":0,'
                    '"byteLength":4}],"accessors":[{"bufferView":0,"count":1,'
                    '"componentType":4294972416,"type":"SCALAR"}]')
    case("a choice past 32 bits", past, INVALID)
    case("a document with a report", FAULTY, FAULTY_WRITTEN)
    case("a document with a mapping", MAPPED, None)
    case("a document of six reports", SIX, INVALID)
    case("a byte of no text", b'{"asset":{"version":"\xff"}}', NO_JSON)


def main():
    check = is_check(__doc__)
    for make in (
        *(numbers, names_twice, lists, places, attributes, texts, nesting, ends, no_text, keeping),
        *(invalid, fronts, single),
    ):
        make()
    there = printed()["documents"]
    before = there[:there.index(FIRST_LINE)] + FIRST_LINE
    calls = (
        f"# reports, {len(REPORTS)} cases: as expected\n"
        f"# documents by calls, {len(BUILT)} cases: as expected\n"
    )
    documents = before + f"# both ways, and {len(CASES)} cases: as expected\n"
    files = {STDOUT: with_parts({"documents": documents, "calls": calls})}
    for name, listed in (("cases", CASES), ("reports", REPORTS), ("built", BUILT)):
        lines = [json.dumps(case_, separators=(",", ":")) + "\n" for case_ in listed]
        files[DATA / f"{name}.jsonl"] = "".join(lines)
    settle(files, check)


if __name__ == "__main__":
    main()
