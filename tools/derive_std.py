"""Expressions for names of std and for operators."""
import math
import re
import struct

from derive_forms import (BOOL, FLOAT, LITERAL, STR, USIZE, WIDTHS, NoForm, Value, bare, is_list,
                          is_std, option, short)
from derive_functions import Type
from derive_rust import Array, Get, Prefix, Send, Sign, Word
from derive_terms import Call, Text

# Names of std that compare, by their last word.
COMPARED = {"nat_lt": "<", "nat_le": "<=", "lt": "<", "le": "<=", "eq": "==", "==": "=="}
FLOATS = {"add": "+", "mul": "*"}


class Std:
    """The part of a translator that knows std. `value` and `node` are those of the whole."""

    def built_in(self, head, arguments, want):
        """The value of a name of std or of an operator."""
        name = short(head) if head.startswith(("Rattle.std.", "lib.")) else head
        if name in ("true", "false"):
            return Value(Word(name), BOOL)
        if name in ("&&", "||"):
            return Value(Sign(name, *(self.node(one, BOOL) for one in arguments)), BOOL)
        if name == "not":
            return self.negated(arguments[0])
        if name in COMPARED and len(arguments) == 2:
            return self.compared(COMPARED[name], *arguments)
        if name in ("is_some", "is_none"):
            return Value(Send(bare(self.value(arguments[0]).node), name), BOOL)
        if name in ("∷", "[]"):
            return self.listed(head, arguments, want)
        if name == "length":
            made = self.value(arguments[0])
            if not is_list(made.type):
                raise NoForm("a length of no list")
            return Value(Send(bare(made.node), "len"), USIZE)
        if name == "slice_get":
            made = self.value(arguments[0])
            if not is_list(made.type):
                raise NoForm("an item of no list")
            node = Send(bare(made.node), "get", (self.node(arguments[1], USIZE),))
            return Value(node, option(Type("ref", (made.type.target().parts[0],))))
        if name in ("float_zero", "float_one"):
            return Value(Word("0.0" if name == "float_zero" else "1.0"), FLOAT)
        return self.number(name, arguments, want) or self.text(name, arguments)

    def number(self, name, arguments, want):
        """The value of a number's name."""
        if name in ("+", "*", "%"):
            return self.calculated(name, *arguments, want)
        if name in FLOATS and len(arguments) == 3:
            left, right = (self.node(one, FLOAT) for one in arguments[1:])
            return Value(Sign(FLOATS[name], left, right), FLOAT)
        if name == "neg":
            return Value(Prefix("-", self.node(arguments[-1], FLOAT)), FLOAT)
        if name == "of_bits":
            return Value(Word(self.float_text(arguments[1])), FLOAT)
        return None

    def index_number(self, head, arguments):
        """The number of an index."""
        if short(head) != "index_number":
            return None
        made = self.value(arguments[0])
        if not made.type.target().is_named("Index", "IndexTo"):
            raise NoForm("a number of no index")
        of = bare(made.node)
        return Value(Send(of, "number"), Type("named", (), ("u32",)),
                     Send(of, "value") if made.type.target().is_named("Index") else None)

    def float_text(self, bits):
        """The constant or the literal of a float."""
        number = struct.unpack(">d", int(bits.text, 16).to_bytes(8, "big"))[0]
        known = {math.pi: "PI", math.pi / 2: "FRAC_PI_2", math.pi / 4: "FRAC_PI_4"}
        if number in known and known[number] in self.module.uses:
            return known[number]
        return repr(number)

    def text(self, name, arguments):
        """The value of a text's name."""
        if name == "bytes_eq":
            left, right = (self.node(one, Type("ref", (STR,))) for one in arguments)
            return Value(Sign("==", left, right), BOOL)
        if name == "codes" and isinstance(arguments[0], Text):
            return Value(Word(arguments[0].text), Type("ref", (STR,)))
        if name == "string_bytes":
            made = self.value(arguments[0])
            return Value(Send(bare(made.node), "as_str"), Type("ref", (STR,)))
        return None

    def negated(self, term):
        node = self.node(term, BOOL)
        if isinstance(node, Sign) and node.sign == "==":
            return Value(Sign("!=", node.left, node.right), BOOL)
        if isinstance(node, Sign) and short(term.head) in ("nat_lt", "nat_le"):
            return Value(Sign("<=" if node.sign == "<" else "<", node.right, node.left), BOOL)
        return Value(Prefix("!", node), BOOL)

    def compared(self, sign, left, right):
        left, right = self.value(left), self.value(right)
        nodes = self.alike(left, right)
        if sign == "==" and right.type == LITERAL:
            nodes = (nodes[0], Word(self.literal(right.node.text, left.type)))
        return Value(Sign(sign, *nodes), BOOL)

    def literal(self, text, type_):
        """A number by its constant, or as a character if it is a byte."""
        number = int(text, 0)
        if type_.target().is_named("u8") and 32 < number < 127:
            return f"b'{chr(number)}'"
        for name in [*self.module.items, *self.module.uses] if number > 255 else ():
            if self.constant(name) == number:
                return name
        return text

    def constant(self, name):
        """The number that a constant of this module is, or None."""
        if not name.isupper():
            return None
        item = self.types.sources.item(self.types.full((name,), self.function.here))
        found = item and re.fullmatch(r"const \w+: \w+ = (0x[0-9A-Fa-f_]+|[0-9_]+|u32::MAX)",
                                      item.signature)
        if not found:
            return None
        return 2 ** 32 - 1 if found[1] == "u32::MAX" else int(found[1], 0)

    def calculated(self, sign, left, right, want):
        one, two = self.value(left, want), self.value(right, want)
        if want and want.path and want.path[-1] in WIDTHS:
            return Value(Sign(sign, self.fitted(one, want), self.fitted(two, want)), want)
        nodes = self.alike(one, two)
        return Value(Sign(sign, *nodes), one.type if two.type == LITERAL else two.type)

    def alike(self, left, right):
        """The expressions of two numbers in one type."""
        names = [one.type.target().path[-1:] for one in (left, right)]
        widths = [WIDTHS.get(name[0]) if name else None for name in names]
        wide = max((width for width in widths if width), default=None)
        if not wide:
            return tuple(self.plain(one) for one in (left, right))
        type_ = next(one.type.target() for one, width in zip((left, right), widths)
                     if width == wide)
        return tuple(self.fitted(one, type_) for one in (left, right))

    def plain(self, value):
        """The expression of a value that is copied."""
        if value.type.kind == "ref" and value.type.target() != STR and not isinstance(
                value.node, Get):
            return Prefix("*", value.node)
        return value.node

    def listed(self, head, arguments, want):
        """A list as an array."""
        items, inner = [], want.target().parts[0] if want and want.target().parts else None
        while head == "∷":
            items.append(self.node(arguments[0], inner))
            rest = arguments[1]
            head = rest.head if isinstance(rest, Call) else getattr(rest, "text", "")
            arguments = rest.arguments if isinstance(rest, Call) else ()
        if not is_std(head, "[]") and head != "[]":
            raise NoForm("a list of unknown length")
        node = Array(tuple(items))
        return Value(Prefix("&", node) if want and want.kind == "ref" else node, want or STR)
