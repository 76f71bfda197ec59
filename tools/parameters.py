"""What both generators of documents are given: --mb N, --faults K, --seed S, and --faulty, --shape and --valid of gen_document.py."""
import argparse
import math
import random
import sys

from settle import parser_of
from shapes import PAIRS, SHAPES


def size(word):
    """A size in million bytes: a number above 0."""
    number = float(word)
    if not 0 < number < math.inf:
        raise argparse.ArgumentTypeError(f"{word} is no size: it must be above 0")
    return number


def number_of_faults(word):
    """A whole number from 0 on."""
    number = int(word)
    if number < 0:
        raise argparse.ArgumentTypeError(f"{word} is no number of faults: it must not be below 0")
    return number


_arguments = parser_of(sys.modules["__main__"].__doc__)
_arguments.add_argument("--mb", metavar="N", type=size, default=10, help="about so many million bytes (10 if absent)")
_arguments.add_argument("--faults", metavar="K", type=number_of_faults, default=0, help="breaks so many indexes of meshes")
_arguments.add_argument("--faulty", choices=["items", "leaves"], help="breaks each item of each list, or a leaf of each mesh")
_arguments.add_argument("--shape", metavar="NAME", choices=[*SHAPES, *PAIRS], help="one thing repeated; shapes.py prints the names")
_arguments.add_argument("--valid", action="store_true", help="obeys the rules of the specification too")
_arguments.add_argument("--seed", metavar="S", type=int, default=1, help="the seed of what is random (1 if absent)")
given = _arguments.parse_args()
chance = random.Random(given.seed)
