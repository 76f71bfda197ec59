"""What the scripts that make expressions share: a value, which is an expression with its type, and
what is asked of types and of names."""
import re
from dataclasses import dataclass

from derive_functions import Type
from derive_rust import Prefix
from derive_terms import Field, Lambda, Name

VARIANT = re.compile(r"Rattle\.(gltf_\w+)\.specs\.declared\.(.+)\.TheVariants\.(\w+)")
BOOL, USIZE, FLOAT = (Type("named", (), (name,)) for name in ("bool", "usize", "f64"))
LITERAL, STR = Type("named", (), ("literal",)), Type("named", (), ("str",))
OPTION = Type("named", (), ("Option",))
# Types of numbers, those that hold more behind the others.
WIDTHS = {"u8": 1, "u16": 2, "u32": 4, "u64": 9, "usize": 8}


class NoForm(Exception):
    """The script has no expression for a term."""


@dataclass(frozen=True)
class Value:
    """An expression with its type. `usize` is the same number as a `usize`, if there is one."""
    node: object
    type: Type
    usize: object = None


def option(inner):
    return Type("named", (inner,), ("Option",))


def short(path):
    return path.rpartition(".")[2]


def snake(name):
    """The name of a type as that of a variable."""
    return re.sub(r"(?<=[a-z0-9])(?=[A-Z])", "_", name).lower()


def is_std(path, *names):
    return path.startswith("Rattle.std.") and short(path) in names


def is_list(made):
    made = made.target()
    return made.kind in ("slice", "array") or made.is_named("Vec")


def bare(node):
    """An expression before a point: without a borrow or a dereference."""
    return node.of if isinstance(node, Prefix) and node.sign in "&*" else node


def is_now(term):
    """Whether a term is `λ x. x.now`."""
    return (isinstance(term, Lambda) and len(term.names) == 1
            and term.body in (Field(Name(term.names[0]), "now"), Name(term.names[0])))


def borrowed(node):
    return node.of if isinstance(node, Prefix) and node.sign == "*" else Prefix("&", node)
