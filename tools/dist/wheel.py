"""Makes the Python wheel of gltf_c, which needs no compiler: the package of crates/gltf_c/python and
the shared library.

`python3 tools/dist/wheel.py VERSION LIBRARY FOLDER` is called by tools/dist.sh.
"""
import base64
import hashlib
import sys
import zipfile
from pathlib import Path

ROOT = Path(__file__).resolve().parents[2]
TAG = "py3-none-linux_x86_64"
WHEEL = f"""\
Wheel-Version: 1.0
Generator: tools/dist/wheel.py
Root-Is-Purelib: false
Tag: {TAG}
"""
METADATA = """\
Metadata-Version: 2.1
Name: gltf_c
Version: {version}
Summary: Checks glTF 2.0 documents and writes them anew
License: Apache-2.0
Requires-Python: >=3.7
"""


def entry(name, content):
    """A line of RECORD."""
    digest = base64.urlsafe_b64encode(hashlib.sha256(content).digest()).rstrip(b"=").decode()
    return f"{name},sha256={digest},{len(content)}\n"


def main():
    version, library, folder = sys.argv[1], Path(sys.argv[2]), Path(sys.argv[3])
    info = f"gltf_c-{version}.dist-info"
    files = {
        "gltf_c/__init__.py": (ROOT / "crates/gltf_c/python/gltf_c/__init__.py").read_bytes(),
        "gltf_c/libgltf_c.so": library.read_bytes(),
        f"{info}/LICENSE": (ROOT / "LICENSE").read_bytes(),
        f"{info}/NOTICE": (ROOT / "NOTICE").read_bytes(),
        f"{info}/METADATA": METADATA.format(version=version).encode(),
        f"{info}/WHEEL": WHEEL.encode(),
    }
    record = "".join(entry(name, content) for name, content in files.items())
    files[f"{info}/RECORD"] = f"{record}{info}/RECORD,,\n".encode()
    path = folder / f"gltf_c-{version}-{TAG}.whl"
    with zipfile.ZipFile(path, "w", zipfile.ZIP_DEFLATED) as wheel:
        for name, content in files.items():
            # The same time in each wheel, so that the same files give the same bytes.
            wheel.writestr(zipfile.ZipInfo(name, (1980, 1, 1, 0, 0, 0)), content,
                           zipfile.ZIP_DEFLATED)


if __name__ == "__main__":
    main()
