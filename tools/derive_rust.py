"""Expressions of Rust, and their text as `rt fmt` lays it out."""
from dataclasses import dataclass

from derive_layout import ARGUMENTS, FIELDS, LINE

# The widths of a chain of calls and of an `if` in one line, and an array's.
CHAIN, CHOICE = 60, 50
ORDER = {"||": 1, "&&": 2, "==": 3, "!=": 3, "<": 3, "<=": 3,
         "+": 5, "-": 5, "*": 6, "%": 6, "/": 6}
AS, PREFIX, POSTFIX = 7, 8, 9


@dataclass(frozen=True)
class Word:
    """A variable, a literal or a path."""
    text: str


@dataclass(frozen=True)
class Get:
    """A field."""
    of: object
    name: str


@dataclass(frozen=True)
class Send:
    """A call of a method."""
    of: object
    name: str
    arguments: tuple = ()


@dataclass(frozen=True)
class Apply:
    """A call of a function or of a constructor."""
    head: str
    arguments: tuple


@dataclass(frozen=True)
class Sign:
    """An operator between two expressions."""
    sign: str
    left: object
    right: object


@dataclass(frozen=True)
class Prefix:
    sign: str
    of: object


@dataclass(frozen=True)
class Cast:
    of: object
    type: str


@dataclass(frozen=True)
class Array:
    items: tuple


@dataclass(frozen=True)
class Pair:
    """A tuple."""
    items: tuple


@dataclass(frozen=True)
class Build:
    """A struct with its fields."""
    head: str
    fields: tuple


@dataclass(frozen=True)
class Choose:
    test: object
    then: object
    other: object


@dataclass(frozen=True)
class Match:
    """Arms are a pattern and an expression each."""
    of: object
    arms: tuple


@dataclass(frozen=True)
class Block:
    """Names with what they stand for, and an expression behind them."""
    lets: tuple
    body: object


def order(node):
    """How strongly an expression binds."""
    if isinstance(node, Sign):
        return ORDER[node.sign]
    if isinstance(node, Cast):
        return AS
    if isinstance(node, Prefix):
        return PREFIX
    return 0 if isinstance(node, (Choose, Match)) else POSTFIX


def children(node):
    """The expressions right in an expression."""
    if isinstance(node, (Get, Prefix, Cast)):
        return [node.of]
    if isinstance(node, Send):
        return [node.of, *node.arguments]
    if isinstance(node, Apply):
        return list(node.arguments)
    if isinstance(node, Sign):
        return [node.left, node.right]
    if isinstance(node, (Array, Pair)):
        return list(node.items)
    if isinstance(node, Build):
        return [one for _, one in node.fields]
    if isinstance(node, Choose):
        return [node.test, node.then, node.other]
    if isinstance(node, Match):
        return [node.of, *(one for _, one in node.arms)]
    if isinstance(node, Block):
        return [*(one for _, one in node.lets), node.body]
    return []


def rebuilt(node, change):
    """An expression with each that is right in it changed."""
    if isinstance(node, (Get, Prefix, Cast)):
        last = node.sign if isinstance(node, Prefix) else getattr(node, "name", None)
        if isinstance(node, Prefix):
            return Prefix(last, change(node.of))
        return type(node)(change(node.of), node.type if isinstance(node, Cast) else last)
    if isinstance(node, Send):
        return Send(change(node.of), node.name, tuple(map(change, node.arguments)))
    if isinstance(node, Apply):
        return Apply(node.head, tuple(map(change, node.arguments)))
    if isinstance(node, Sign):
        return Sign(node.sign, change(node.left), change(node.right))
    if isinstance(node, (Array, Pair)):
        return type(node)(tuple(map(change, node.items)))
    if isinstance(node, Build):
        return Build(node.head, tuple((name, change(one)) for name, one in node.fields))
    if isinstance(node, Choose):
        return Choose(change(node.test), change(node.then), change(node.other))
    if isinstance(node, Match):
        return Match(change(node.of), tuple((one, change(arm)) for one, arm in node.arms))
    return node


def within(node):
    """An expression and all that are in it."""
    yield node
    for one in children(node):
        yield from within(one)


def bound(node, outer):
    """Whether an operand of the operator `outer` needs brackets."""
    if not isinstance(node, Sign):
        return order(node) < ORDER[outer]
    inner = node.sign
    return ORDER[inner] < ORDER[outer] or (inner == "&&" and outer == "||") or (
        ORDER[inner] == ORDER[outer] == 3)


def operand(node, outer, text):
    return f"({text})" if bound(node, outer) else text


def listed(nodes):
    """Expressions between commas, or None if one needs several lines."""
    texts = [flat(one) for one in nodes]
    return None if None in texts else ", ".join(texts)


def flat(node):
    """The text in one line, or None if it needs several."""
    if isinstance(node, Word):
        return node.text
    if isinstance(node, (Get, Send)):
        return flat_chain(node)
    if isinstance(node, Apply):
        inner = listed(node.arguments)
        return None if inner is None or len(inner) > ARGUMENTS else f"{node.head}({inner})"
    if isinstance(node, Sign):
        left, right = flat(node.left), flat(node.right)
        if left is None or right is None:
            return None
        right = f"({right})" if is_right_nested(node) else operand(node.right, node.sign, right)
        left = operand(node.left, node.sign, left)
        if isinstance(node.left, Cast) and node.sign == "<":
            left = f"({left})"
        return f"{left} {node.sign} {right}"
    return flat_rest(node)


def is_right_nested(node):
    """Brackets keep `a - (b - c)` apart from `(a - b) - c`."""
    right = node.right
    return (isinstance(right, Sign) and ORDER[right.sign] == ORDER[node.sign]
            and node.sign not in ("&&", "||"))


def flat_rest(node):
    if isinstance(node, Prefix):
        text = flat(node.of)
        return text and (f"{node.sign}({text})" if order(node.of) < PREFIX else node.sign + text)
    if isinstance(node, Cast):
        text = flat(node.of)
        return text and (f"({text}) as {node.type}" if order(node.of) < AS
                         else f"{text} as {node.type}")
    if isinstance(node, (Array, Pair)):
        inner = listed(node.items)
        if inner is None or len(inner) > ARGUMENTS:
            return None
        return f"[{inner}]" if isinstance(node, Array) else f"({inner})"
    if isinstance(node, Build):
        text = fields_text(node)
        return None if text is None or len(text) > FIELDS else f"{node.head} {{ {text} }}"
    if isinstance(node, Choose):
        texts = [flat(one) for one in (node.test, node.then, node.other)]
        if None in texts or isinstance(node.other, Choose):
            return None
        text = "if {} {{ {} }} else {{ {} }}".format(*texts)
        return text if len(text) <= CHOICE else None
    return None


def fields_text(node):
    texts = [(name, flat(one)) for name, one in node.fields]
    if any(text is None for _, text in texts):
        return None
    return ", ".join(name if name == text else f"{name}: {text}" for name, text in texts)


def flat_chain(node):
    """The text of fields and calls behind one another."""
    inner = flat(node.of)
    if inner is None:
        return None
    if order(node.of) < POSTFIX:
        inner = f"({inner})"
    if isinstance(node, Get):
        return f"{inner}.{node.name}"
    arguments = listed(node.arguments)
    if arguments is None or len(arguments) > ARGUMENTS:
        return None
    text = f"{inner}.{node.name}({arguments})"
    is_chain = isinstance(node.of, Send)
    return None if is_chain and len(text) > CHAIN else text


def joined(front, lines, end=""):
    """Lines behind a text and before another."""
    return [front + lines[0], *lines[1:-1], lines[-1] + end] if len(lines) > 1 else [
        front + lines[0] + end]


def lay(node, depth, column, trail=0):
    """The lines of an expression. The first begins at a column, the others are indented by the
    depth at least; behind the last line stand so many characters more."""
    text = flat(node)
    if text is not None and column + len(text) + trail <= LINE:
        return [text]
    if isinstance(node, (Apply, Array, Pair)):
        front, end = (f"{node.head}(", ")") if isinstance(node, Apply) else (
            ("[", "]") if isinstance(node, Array) else ("(", ")"))
        return lay_list(front, children(node), end, depth, column, trail)
    if isinstance(node, Sign):
        return lay_sign(node, depth, column, trail)
    if isinstance(node, Prefix):
        inner = lay(node.of, depth, column + 1, trail)
        if order(node.of) < PREFIX:
            return joined(f"{node.sign}(", lay(node.of, depth, column + 2, trail + 1), ")")
        return joined(node.sign, inner)
    if isinstance(node, Send):
        return lay_send(node, depth, column, trail)
    return lay_items(node, depth)


def pad(depth):
    return "    " * depth


def lay_list(front, nodes, end, depth, column, trail):
    if len(nodes) == 1 and isinstance(
            nodes[0], (Apply, Send, Array, Match, Choose)):
        return joined(front, lay(nodes[0], depth, column + len(front), trail + len(end)), end)
    lines = [front]
    for one in nodes:
        lines += joined(pad(depth + 1), lay(one, depth + 1, 4 * depth + 4, 1), ",")
    return [*lines, pad(depth) + end]


def lay_sign(node, depth, column, trail):
    parts, left = [], node
    while isinstance(left, Sign) and ORDER[left.sign] == ORDER[node.sign]:
        parts.insert(0, (left.sign, left.right))
        left = left.left
    lines = bracketed(left, node.sign, depth, column)
    for at, (sign, one) in enumerate(parts):
        inner = bracketed(one, node.sign, depth + 1, 4 * depth + 5 + len(sign),
                          trail if at == len(parts) - 1 else 0)
        lines += joined(f"{pad(depth + 1)}{sign} ", inner)
    return lines


def bracketed(node, sign, depth, column, trail=0):
    if bound(node, sign):
        return joined("(", lay(node, depth, column + 1, trail + 1), ")")
    return lay(node, depth, column, trail)


def lay_send(node, depth, column, trail):
    """A chain that is too long has a line for each call."""
    links, first = [], node
    while isinstance(first, Send) and (isinstance(first.of, Send) or links):
        links.insert(0, first)
        first = first.of
    if not links:
        inner = flat(node.of) or ""
        return lay_list(f"{inner}.{node.name}(", node.arguments, ")", depth, column, trail)
    lines = lay(first, depth, column)
    for at, link in enumerate(links):
        front = f"{pad(depth + 1)}.{link.name}("
        inner = listed(link.arguments)
        lines += [f"{front}{inner})"] if inner is not None else lay_list(
            front, link.arguments, ")", depth + 1, 0, trail)
    return lines


def lay_items(node, depth):
    """What has lines of its own: a struct, a choice, a match."""
    if isinstance(node, Build):
        lines = [f"{node.head} {{"]
        for name, one in node.fields:
            front = "" if flat(one) == name else f"{name}: "
            lines += joined(pad(depth + 1) + front,
                            lay(one, depth + 1, 4 * depth + 4 + len(front), 1), ",")
        return [*lines, pad(depth) + "}"]
    if isinstance(node, Choose):
        lines = joined("if ", lay(node.test, depth, 4 * depth + 3, 2), " {")
        lines += lay_block(node.then, depth + 1)
        if isinstance(node.other, Choose):
            return [*lines, *joined(f"{pad(depth)}}} else ", lay_items(node.other, depth))]
        return [*lines, f"{pad(depth)}}} else {{", *lay_block(node.other, depth + 1),
                pad(depth) + "}"]
    if isinstance(node, Match):
        lines = joined("match ", lay(node.of, depth, 4 * depth + 6, 2), " {")
        for pattern, one in node.arms:
            lines += lay_arm(pattern, one, depth + 1)
        return [*lines, pad(depth) + "}"]
    raise ValueError(node)


def lay_arm(pattern, node, depth):
    """An arm of a match."""
    front = f"{pad(depth)}{pattern} => "
    if isinstance(node, Block):
        return [front + "{", *lay_block(node, depth + 1), pad(depth) + "}"]
    text = flat(node)
    if text is not None and len(front) + len(text) + 1 <= LINE:
        return [f"{front}{text},"]
    if isinstance(node, Match):
        return joined(front, lay(node, depth, len(front)), ",")
    inner = lay(node, depth + 1, 4 * depth + 4)
    if len(inner) == 1 or isinstance(node, (Sign, Choose)):
        return [front + "{", pad(depth + 1) + inner[0], *inner[1:], pad(depth) + "}"]
    return joined(front, lay(node, depth, len(front), 1), ",")


def lay_block(node, depth):
    """The lines between the brackets of a block."""
    lines = []
    lets, body = (node.lets, node.body) if isinstance(node, Block) else ((), node)
    for name, one in lets:
        front = f"{pad(depth)}let {name} = "
        lines += joined(front, lay(one, depth, len(front), 1), ";")
    return [*lines, *joined(pad(depth), lay(body, depth, 4 * depth))]
