"""Names for what stands in an expression more than once.

A list of rules names the object that its rules are about `at`, other objects by their last name,
and places by the name of the member. A call that stands there twice gets its name from the
function."""
import re

from derive_forms import snake
from derive_layout import LINE
from derive_rust import (Apply, Array, Block, Cast, Get, Match, Prefix, Send, Sign, Word, children,
                         flat, pad, rebuilt, within)

CONSTRUCTOR = re.compile(r"[A-Z]\w*::[A-Z]\w*")
CONSTANT = re.compile(r"[A-Z][A-Z0-9_]+")
# Calls that are as short as a name.
SHORT = {"len", "is_some", "is_none", "number", "value", "as_str", "get"}
ENDINGS = ("_of", "_number")


def is_made(node):
    """Whether an expression is a variant with what it holds."""
    return isinstance(node, Apply) and bool(CONSTRUCTOR.fullmatch(node.head))


def is_name(node):
    """Whether an expression is a variant that holds nothing."""
    return isinstance(node, Word) and bool(CONSTRUCTOR.fullmatch(node.text))


def is_place(node):
    """Whether it is a variant that holds an object and a part of it."""
    if not is_made(node) or len(node.arguments) < 2:
        return False
    is_pair = len(node.arguments) == 2 and all(map(is_name, node.arguments))
    return is_made(node.arguments[0]) or is_pair


def put(node, old, new):
    """An expression with another one in place of a part."""
    return new if node == old else rebuilt(node, lambda one: put(one, old, new))


def in_order(nodes):
    return [*dict.fromkeys(nodes)]


class Lets:
    """Finds the names of one function. `has_requires` says of which functions a call may only be
    where it stands."""

    def __init__(self, node, parameters, has_requires):
        self.body, self.has_requires = node, has_requires
        self.lets = []
        self.is_list = isinstance(node, Array)
        self.inner = {word for one in within(node) if isinstance(one, Match)
                      for pattern, _ in one.arms for word in re.findall(r"\b[a-z]\w*", pattern)}
        self.taken = set(parameters) | self.inner | {
            one.text for one in within(node) if isinstance(one, Word)}

    def made(self):
        """The expression with its names."""
        self.name_places()
        self.name_objects()
        if self.is_list:
            self.name_presence()
            self.name_constants()
        self.name_calls()
        return Block(tuple(self.ordered()), self.body) if self.lets else self.body

    def everything(self):
        """All expressions, each as often as it stands there."""
        for node in (self.body, *(one for _, one in self.lets)):
            yield from within(node)

    def count(self, wanted):
        return sum(1 for one in self.everything() if one == wanted)

    def is_free(self, node):
        """Whether an expression has only names that the whole function has."""
        return not any(isinstance(one, Word) and one.text in self.inner for one in within(node))

    def name(self, node, name):
        """Names an expression, if the name is free: a function that is called keeps its own."""
        heads = {one.head for one in self.everything() if isinstance(one, Apply) and one != node}
        if name in self.taken | heads or not self.is_free(node):
            return False
        self.taken.add(name)
        self.body = put(self.body, node, Word(name))
        self.lets = [(one, put(value, node, Word(name))) for one, value in self.lets]
        self.lets.append((name, node))
        return True

    def ordered(self):
        """The names, each behind those that it depends on."""
        known = dict(self.lets)
        done = []

        def visit(name):
            for one in within(known[name]):
                if isinstance(one, Word) and one.text in known:
                    visit(one.text)
            if name not in done:
                done.append(name)

        for name in sorted(known, key=lambda one: one != "at"):
            visit(name)
        return [(name, known[name]) for name in done]

    def name_places(self):
        """Names the places that several rules have."""
        found = in_order(one for one in within(self.body) if is_place(one) and self.is_free(one))
        found = [one for one in found if self.count(one) > 1]
        objects = {one.arguments[0] for one in within(self.body) if is_place(one)}
        for one in found:
            last = one.arguments[-1]
            if len(found) == 1 and len(objects) == 1 and self.is_only(one):
                self.name(one, "at")
            elif is_name(last):
                self.name(one, f"{snake(last.text.split('::')[1])}_at")

    def is_only(self, place):
        """Whether all rules are about this place."""
        return all(one == place for one in within(self.body)
                   if is_place(one) or is_made(one) and one.arguments == place.arguments[:1])

    def name_objects(self):
        """Names the objects of several places, and one that is too long for its place."""
        found = in_order(one for one in self.everything() if is_made(one) and not is_place(one)
                         and not any(map(is_made, one.arguments)))
        found = [one for one in found if self.is_object(one)]
        wanted = [one for one in found if self.count(one) > 1 or not self.fits(one)]
        if not wanted:
            return
        first = min(wanted, key=lambda one: len(one.arguments))
        for one in wanted:
            if one is first and self.name(one, "at"):
                continue
            names = [snake(word.text.split("::")[1]) for word in one.arguments if is_name(word)]
            if names and not self.name(one, names[-1]):
                self.name(one, f"{names[-1]}_at")

    def is_object(self, node):
        """Whether a variant stands in a place or is what a rule is about."""
        parents = [one for one in self.everything() if node in children(one)]
        return bool(parents) and self.is_free(node) and (
            self.is_list or any(map(is_made, parents)))

    def fits(self, node):
        """Whether what an object stands in has room for it in one line."""
        for name, value in self.lets:
            if node in within(value) and (
                    flat(value) is None or len(f"{pad(1)}let {name} = {flat(value)};") > LINE):
                return False
        return all(flat(one) is not None for one in within(self.body)
                   if node in children(one) and not (is_made(one) and len(one.arguments) == 1))

    def name_presence(self):
        """Names whether a member is there, if that is asked twice or denied."""
        found = in_order(one for one in within(self.body) if isinstance(one, Send)
                         and one.name == "is_some" and isinstance(one.of, Get))
        for one in found:
            if self.count(one) > 1 or self.count(Prefix("!", one)):
                self.name(one, f"has_{one.of.name}")

    def name_constants(self):
        """Names whether something is a constant, if that is asked twice."""
        found = in_order(Sign("==", one.left, one.right) for one in within(self.body) if isinstance(
            one, Sign) and one.sign in ("==", "!=") and isinstance(one.right, Word)
            and CONSTANT.fullmatch(one.right.text))
        for one in found:
            other = Sign("!=", one.left, one.right)
            if self.count(one) + self.count(other) > 1:
                name = f"is_{one.right.text.lower()}"
                if name not in self.taken:
                    self.body = put(self.body, other, Prefix("!", one))
                    self.name(one, name)

    def name_calls(self):
        """Names calls that stand there twice, the longest first."""
        while True:
            found = [one for one in in_order(self.everything()) if self.is_call(one)
                     and self.count(one) > 1 and self.is_free(one)]
            found.sort(key=lambda one: -len(flat(one) or "-" * LINE))
            if not any(self.name(one, self.name_of(one)) for one in found):
                return

    def is_call(self, node):
        if isinstance(node, Cast):
            return isinstance(node.of, Send)
        if isinstance(node, Send):
            return node.name not in SHORT and not self.has_requires(node.name)
        return isinstance(node, Apply) and node.head[0].islower() and not self.has_requires(
            node.head) and self.is_list

    def name_of(self, node):
        """What a call gives, by the name of the function."""
        if isinstance(node, Cast):
            of = node.of.of
            return of.name if isinstance(of, Get) else getattr(of, "text", "number")
        if isinstance(node, Send):
            return node.name.removeprefix("as_")
        if is_name(node.arguments[-1]) if node.arguments else False:
            front = node.head.partition("_")[0]
            return f"{front}_{snake(node.arguments[-1].text.split('::')[1])}"
        for ending in ENDINGS:
            if node.head.endswith(ending):
                return node.head.removesuffix(ending)
        return node.head
