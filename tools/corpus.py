"""The data of the program gltf_corpus_run, and what it must print: a part below each heading."""
import re

from sources import ROOT

RUN = ROOT / "crates" / "gltf_corpus_run"
DATA, ARGS, STDOUT = RUN / "data", RUN / "args", RUN / "stdout"


def printed():
    """What the program must print, by the heading of each part."""
    _, *found = re.split(r"(?m)^== (\w+)\n", STDOUT.read_text())
    return dict(zip(found[::2], found[1::2]))


def with_parts(made):
    """What the program must print if these are the parts below their headings."""
    parts = printed()
    assert made.keys() <= parts.keys(), "a part without a heading"
    return "".join(f"== {heading}\n{part}" for heading, part in {**parts, **made}.items())
