"""Builds the library `gltf_c` and the programs in C, Python and Rust that call it, runs each on the
documents of examples/, and compares output and exit status with what docs/SCHEMA.md says. It also
tries what no program here does: null pointers at the length 0, every size of buffer, the version,
and how much stack a call needs.

`rt lib` proves the crate first. If all crates below it are proved that takes a minute, else as long
as docs/GATE.md says; the programs take some seconds. A program whose compiler is missing is left out, and said so.
`--built` takes the library as it lies in crates/gltf_c/out.

`--dist` also makes the archive and the wheel (tools/dist.sh), for which `rt run` must have built
gltf_lint and gltf_report. It unpacks them into a clean folder and runs the commands of docs/C.md,
"From an archive", there. It compares what they print with the page, and builds a program by CMake.
The commands of "Build and link" run in a clean folder without `--dist` too, except for `rt lib`.

The script ends with status 1 if a program could not be built or one result differs.
"""
import ctypes
import json
import os
import re
import shutil
import struct
import subprocess
import sys
import tempfile
from pathlib import Path

from gen_positions import places_in, position
from settle import parser_of

ROOT = Path(__file__).resolve().parent.parent
CRATE = ROOT / "crates" / "gltf_c"
EXAMPLES = ROOT / "examples"

UNSUPPORTED = 'extensionsRequired[0] = "KHR_lights_punctual": Unsupported extension\n'
FIRST = """\
accessors[1].bufferView: Index out of bounds
accessors[1].componentType: Invalid value
accessors[1].type: Invalid value
"""
FAULTS = f"""\
accessors[0].bufferView: Missing data
{FIRST}bufferViews[0].buffer: Index out of bounds
bufferViews[0].byteStride: Invalid value
bufferViews[0].target: Invalid value
"""
CLEAN_ANEW = (
    '{"accessors":[{"bufferView":0,"componentType":5126,"count":8,"max":[1,1,1],"min":[-1,-1,-1],'
    '"type":"VEC3"}],"asset":{"generator":"by hand","version":"2.0"},"bufferViews":[{"buffer":0,'
    '"byteLength":96,"byteStride":12,"target":34962}],"buffers":[{"byteLength":96,'
    '"uri":"corners.bin"}]}'
)
REFUSED_GLB = "refused: not binary glTF\n"


def as_json(file):
    """The lines of the reports of first.gltf as JSON, for a file of this name."""
    reports = [
        ("index-out-of-bounds", "Index out of bounds", "bufferView"),
        ("invalid", "Invalid value", "componentType"),
        ("invalid", "Invalid value", "type"),
    ]
    return "".join(
        f'{{"code":"{code}","file":"{file}","kind":"report","message":"{message}",'
        f'"path":"accessors[1].{member}","pointer":"/accessors/1/{member}"}}\n'
        for code, message, member in reports)


def finding(code, file, message, section, severity, pointer=None, offset=None, text=None):
    """The line of a finding as JSON. The pointer leads to a place in a text."""
    line, column = None, None
    if pointer is not None:
        line, column = position(text, places_in(text), pointer)
    members = {"code": code, "column": column, "file": file, "kind": "finding", "line": line,
               "message": message, "offset": offset, "pointer": pointer, "section": section,
               "severity": severity}
    return json.dumps(members, separators=(",", ":")) + "\n"


# A camera that looks the wrong way, with a misspelt member, and what the specification says of it.
CAMERA = '''{"asset":{"version":"2.0"},"cameras":[{"type":"perspective",
"perspective":{"yfov":-1,"znear":1,"zfarr":2}}]}'''
CAMERA_AT = "/cameras/0"
CAMERA_FINDINGS = [
    ("UNEXPECTED_PROPERTY", "the format has no member of this name", "5", "warning",
     f"{CAMERA_AT}/perspective/zfarr"),
    ("VALUE_NOT_IN_RANGE", "a number is out of its range", "5", "error",
     f"{CAMERA_AT}/perspective/yfov"),
    ("UNUSED_OBJECT", "nothing refers to the object", "5", "information", CAMERA_AT),
]


def camera_found(file):
    """The findings of the camera, for a file of this name."""
    text = CAMERA.encode()
    return "".join(finding(code, file, *rest, text=text) for code, *rest in CAMERA_FINDINGS)


def cut_found():
    """The finding of a .glb file that lacks its last 4 bytes: it ends within a chunk."""
    end = len(glb_of((EXAMPLES / "clean.gltf").read_bytes())) - 4
    return finding("GLB_UNEXPECTED_END_OF_CHUNK_DATA", "cut.glb",
                   "the file ends within the data of a chunk", "4.4.3", "error", offset=end)


def glb_of(text):
    """The bytes of a .glb file with this JSON and no other chunk (glTF 2.0, section 4.4)."""
    text += b" " * (-len(text) % 4)
    chunk = struct.pack("<I4s", len(text), b"JSON") + text
    return struct.pack("<4sII", b"glTF", 2, 12 + len(chunk)) + chunk


# The words after a program's name, its exit status and its output. `write_files` makes the files.
CASES = [
    (["clean.gltf"], 0, "clean\n"),
    (["first.gltf"], 1, FIRST),
    (["faults.gltf"], 1, FAULTS),
    ([os.devnull], 2, "refused: not JSON\n"),
    (["refused.gltf"], 3, "refused: not a glTF document\n"),
    (["required.gltf"], 0, "clean\n"),
    (["required.gltf", ""], 1, UNSUPPORTED),
    (["required.gltf", "KHR_materials_unlit"], 1, UNSUPPORTED),
    (["required.gltf", "KHR_materials_unlit\nKHR_lights_punctual"], 0, "clean\n"),
    (["-j", "clean.gltf"], 0, ""),
    (["-j", "first.gltf"], 1, as_json("first.gltf")),
    (["-j", os.devnull], 2, ""),
    (["-j", "refused.gltf"], 3, ""),
    (["-f", os.devnull], 2, ""),
    (["-f", "camera.gltf"], 1, camera_found("camera.gltf")),
    (["-f", "camera.glb"], 1, camera_found("camera.glb")),
    (["-f", "cut.glb"], 1, cut_found()),
    (["clean.glb"], 0, "clean\n"),
    (["first.glb"], 1, FIRST),
    (["cut.glb"], 7, REFUSED_GLB),
    (["-j", "clean.glb"], 0, ""),
    (["-j", "first.glb"], 1, as_json("first.glb")),
    (["-j", "cut.glb"], 7, ""),
    (["-w", "clean.glb"], 2, ""),
    (["-w", "clean.gltf"], 0, CLEAN_ANEW),
    (["-w", os.devnull], 2, ""),
    (["-w", "refused.gltf"], 3, ""),
    (["-w", "first.gltf"], 5, ""),
]


def write_files(folder):
    """Copies examples/ into a folder and adds a camera and .glb files, one of them cut off."""
    shutil.copytree(EXAMPLES, folder)
    for name in ("clean", "first"):
        (folder / f"{name}.glb").write_bytes(glb_of((EXAMPLES / f"{name}.gltf").read_bytes()))
    (folder / "cut.glb").write_bytes((folder / "clean.glb").read_bytes()[:-4])
    (folder / "camera.gltf").write_text(CAMERA)
    (folder / "camera.glb").write_bytes(glb_of(CAMERA.encode()))


CMAKE = """\
cmake_minimum_required(VERSION 3.13)
project(check C)
find_package(gltf_c 1.4 REQUIRED)
add_executable(shared check.c)
target_link_libraries(shared gltf_c::gltf_c)
add_executable(static check.c)
target_link_libraries(static gltf_c::static)
"""


class Failed(Exception):
    pass


def run(*words, **how):
    print("+", *words, flush=True)
    if subprocess.run([str(word) for word in words], **how).returncode:
        raise Failed(f"{words[0]} failed")


def first_of(*names):
    """The first of these commands that the machine has."""
    return next((name for name in names if name and shutil.which(name)), None)


def libraries(is_built):
    """Proves and builds the library. Returns it, and the kit's library by which it allocates."""
    if not shutil.which("rt"):
        raise Failed("rt isn't on the PATH: README.md says how to get it there")
    if not is_built:
        run("rt", "lib", cwd=CRATE)
    page = subprocess.run(["rt", "doc"], capture_output=True, text=True, check=True).stdout.strip()
    return CRATE / "out" / "libgltf_c.a", Path(page).parent / "c" / "liblibc_c.a"


def c_program(cc, folder, own, kit):
    source, program = EXAMPLES / "c" / "check.c", folder / "check_c"
    run(cc, "-std=c99", "-O2", "-Wall", "-I", CRATE / "include", source, own, kit, "-o", program)
    return [program]


def python_program(cc, folder, own, kit):
    shared = folder / "libgltf_c.so"
    all_of = ["-Wl,--whole-archive", own, "-Wl,--no-whole-archive"]
    run(cc, "-shared", *all_of, kit, "-o", shared)
    found_in = ["env", f"GLTF_C={shared}", f"PYTHONPATH={CRATE / 'python'}"]
    return [*found_in, sys.executable, EXAMPLES / "python" / "check.py"]


def rust_program(rustc, folder, own, kit):
    source, program = EXAMPLES / "rust" / "check.rs", folder / "check_rust"
    found_in = ["-L", f"native={own.parent}", "-L", f"native={kit.parent}"]
    run(rustc, "--edition", "2024", "-O", source, *found_in, "-l", "static=libc_c", "-o", program)
    return [program]


def differences(name, program):
    """Runs a program on each case, and prints where its result is another."""
    count = 0
    with tempfile.TemporaryDirectory() as place:
        files = Path(place) / "examples"
        write_files(files)
        for words, status, output in CASES:
            ran = subprocess.run([*program, *words], cwd=files, capture_output=True)
            if (ran.returncode, ran.stdout) != (status, output.encode()):
                count += 1
                print(f"{name} {words}: status {ran.returncode}, {ran.stdout}, {ran.stderr}")
    print(f"{name}: {len(CASES) - count} of {len(CASES)} as expected")
    return count


class Library:
    """The shared library, with calls that take what ctypes passes."""

    def __init__(self, path):
        class Returned(ctypes.Structure):
            _fields_ = [("status", ctypes.c_uint8), ("needed", ctypes.c_size_t)]

        self.loaded = ctypes.CDLL(str(path))
        for name in ("check", "check_by", "check_json", "findings", "rewrite", "version"):
            getattr(self.loaded, f"gltf_c_{name}").restype = Returned

    def call(self, name, inputs, output, room):
        given = []
        for item in inputs:
            if isinstance(item, bool):
                given.append(ctypes.c_bool(item))
            else:
                given += [ctypes.c_char_p(item), ctypes.c_size_t(len(item or b""))]
        given += [output, ctypes.c_size_t(room)]
        returned = getattr(self.loaded, f"gltf_c_{name}")(*given)
        return returned.status, returned.needed


def edge_faults(library):
    """What differs from docs/C.md at null pointers and at each size of buffer."""
    clean, first = ((EXAMPLES / f"{name}.gltf").read_bytes() for name in ("clean", "first"))
    refused, version = b"refused: not JSON\n", header_version().encode()
    cases = [
        ("check", [clean], 0, b"clean\n"),
        ("check", [None], 2, refused),
        ("check_by", [None, None, False], 2, refused),
        ("check_by", [clean, None, True], 0, b"clean\n"),
        ("check_json", [first, b"a"], 1, as_json("a").encode()),
        ("check_json", [first, None], 1, as_json("").encode()),
        ("check_json", [first, b"\xff"], 6, b""),
        ("check_json", [None, None], 2, b""),
        ("findings", [CAMERA.encode(), b"a"], 1, camera_found("a").encode()),
        ("findings", [CAMERA.encode(), None], 1, camera_found("").encode()),
        ("findings", [None, b"\xff"], 6, b""),
        ("findings", [None, None], 2, b""),
        ("rewrite", [clean], 0, CLEAN_ANEW.encode()),
        ("rewrite", [None], 2, b""),
        ("version", [], 0, version),
    ]
    for name, inputs, status, due in cases:
        if library.call(name, inputs, None, 0) != (status, len(due)):
            yield f"{name} {inputs} with a null output"
        for room in range(len(due) + 2):
            output = ctypes.create_string_buffer(b"." * room, room + 1)
            found = library.call(name, inputs, output, room)
            if found != (status, len(due)) or output.raw[:room] != due[:room].ljust(room, b"."):
                yield f"{name} {inputs} with room for {room} bytes: {found}, {output.raw}"


def header_version():
    text = (CRATE / "include" / "gltf_c.h").read_text()
    return re.search(r'^#define GLTF_C_VERSION "(.*)"$', text, re.M).group(1)


def stack_needed(cc, folder, own, kit):
    """The KiB of stack, to the next 8, with which each call passes on hostile documents."""
    program = folder / "stack"
    source = ROOT / "tools" / "dist" / "stack.c"
    run(cc, "-O2", "-pthread", "-I", CRATE / "include", source, own, kit, "-o", program)
    for kib in range(32, 1024, 8):
        if subprocess.run([program, str(kib)], capture_output=True).returncode == 0:
            return kib
    raise Failed("the calls need more than 1 MiB of stack")


def stated_stack():
    """The KiB of stack that docs/C.md says a call needs."""
    page = (ROOT / "docs" / "C.md").read_text()
    return int(re.search(r"Give a thread (\d+) KiB", page).group(1))


def more_faults(cc, folder, own, kit):
    """Prints what is wrong beside the programs, and returns how much."""
    faults = list(edge_faults(Library(folder / "libgltf_c.so")))
    version = re.search(r"^## (\S+)", (ROOT / "CHANGELOG.md").read_text(), re.M).group(1)
    if header_version() != version:
        faults.append(f"the header has another version than CHANGELOG.md, {version}")
    needed = stack_needed(cc, folder, own, kit)
    print(f"stack: {needed} KiB are enough for each call; docs/C.md says {stated_stack()}")
    if 2 * needed > stated_stack():
        faults.append("docs/C.md doesn't state twice the stack that a call needs")
    for fault in faults:
        print(fault)
    print(f"buffers, nulls, version and stack: {len(faults)} faults")
    return len(faults)


def commands_of(heading):
    """The commands of a part of docs/C.md, and the text behind them."""
    page = (ROOT / "docs" / "C.md").read_text()
    part = re.search(rf"(?ms)^## {heading}$(.*?)^## ", page).group(1)
    texts = re.findall(r"(?ms)^```text\n(.*?)^```$", part)
    return re.search(r"(?ms)^```sh\n(.*?)^```$", part).group(1), "".join(texts)


def linking_faults(has_rustc):
    """Runs the commands of docs/C.md, "Build and link", in a clean folder with the library."""
    commands = commands_of("Build and link")[0]
    commands = "".join(re.findall(r"(?m)^(?!.*\brt lib\b).*\n", commands))
    due = FIRST * 3
    if not has_rustc:
        commands, due = commands[:commands.index("# Rust")], FIRST * 2
    with tempfile.TemporaryDirectory() as place:
        for name in ("crates/gltf_c", "examples"):
            shutil.copytree(ROOT / name, Path(place) / name)
        ran = subprocess.run(["bash", "-c", commands], cwd=place, capture_output=True, text=True)
    if ran.stdout != due:
        print(f"build and link: {ran.stdout}{ran.stderr}")
        return 1
    print("build and link: the commands of docs/C.md print what they should")
    return 0


def archive_faults():
    """Runs the commands of docs/C.md, "From an archive", in a clean folder, and compares."""
    commands, due = commands_of("From an archive")
    with tempfile.TemporaryDirectory() as place:
        home, folder = Path(place) / "home", Path(place) / "files"
        home.mkdir()
        run(ROOT / "tools" / "dist.sh", folder)
        keep = {name: os.environ[name] for name in ("LANG",) if name in os.environ}
        env = {"HOME": str(home), "PATH": f"{Path(sys.executable).parent}:/usr/bin:/bin", **keep}
        ran = subprocess.run(["bash", "-ec", commands], cwd=folder, env=env, capture_output=True)
        if (ran.returncode, ran.stdout.decode()) != (0, due):
            print(f"archive: status {ran.returncode}\n{ran.stdout.decode()}{ran.stderr.decode()}")
            return 1
        print("archive: the commands of docs/C.md print what it says")
        if not shutil.which("cmake"):
            print("CMake: left out, since this machine hasn't got it")
            return 0
        return cmake_faults(home)


def cmake_faults(home):
    """Builds the program in C with both libraries by CMake, from what `make install` copied."""
    project = home / "project"
    project.mkdir()
    (project / "CMakeLists.txt").write_text(CMAKE)
    shutil.copy(EXAMPLES / "c" / "check.c", project)
    built = project / "build"
    run("cmake", "-S", project, "-B", built, f"-DCMAKE_PREFIX_PATH={home / '.local'}",
        stdout=subprocess.DEVNULL)
    run("cmake", "--build", built, stdout=subprocess.DEVNULL)
    return sum(differences(f"CMake, {name}", [built / name]) > 0 for name in ("shared", "static"))


def main():
    parser = parser_of(__doc__)
    parser.add_argument("--built", action="store_true", help="take the library as it is in out/")
    parser.add_argument("--dist", action="store_true", help="also try the archive")
    words = parser.parse_args()
    own, kit = libraries(words.built)
    cc = first_of(os.environ.get("CC"), "cc", "gcc", "clang")
    rustc = first_of(os.environ.get("RUSTC"), "rustc")
    ways = [
        ("C", cc, c_program),
        ("Python", cc, python_program),
        ("Rust", rustc, rust_program),
    ]
    count = 0
    with tempfile.TemporaryDirectory() as folder:
        for name, compiler, program in ways:
            if compiler:
                count += differences(name, program(compiler, Path(folder), own, kit))
            else:
                print(f"{name}: left out, since this machine has no compiler for it")
        if cc:
            count += more_faults(cc, Path(folder), own, kit)
            count += linking_faults(rustc)
    if words.dist:
        count += archive_faults()
    sys.exit(1 if count else 0)


if __name__ == "__main__":
    try:
        main()
    except Failed as failed:
        sys.exit(str(failed))
