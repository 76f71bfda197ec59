"""Functions by cases: a definition with several clauses becomes a `match`."""
import re

from derive_expressions import Translator, inverses
from derive_forms import BOOL, VARIANT, NoForm, Value, short, snake
from derive_functions import NUMBERS, Type
from derive_rust import Choose, Get, Match, Pair, Prefix, Send, Word, flat, within
from derive_terms import (PRELUDE, Call, Field, If, Name, Number, Record, Tuple, definition,
                          names_in, replaced)

SOME, NONE = f"{PRELUDE}.Some", f"{PRELUDE}.None"
TRUTH = {f"{PRELUDE}.true": "true", f"{PRELUDE}.false": "false"}
LISTS = ("∷", "[]", f"{PRELUDE}.[]")


def is_variable(pattern):
    return isinstance(pattern, Name) and not pattern.text.startswith("Rattle.") and (
        pattern.text != "[]")


def head_of(term):
    return term.head if isinstance(term, Call) else getattr(term, "text", "")


def inner_of(term):
    return term.arguments if isinstance(term, Call) else ()


def is_constructor(term):
    """Whether a term is a value of an enum as it is written."""
    return head_of(term) in (SOME, NONE, *TRUTH) or bool(VARIANT.fullmatch(head_of(term)))


def words_of(term):
    """The first words of the values in a term."""
    if isinstance(term, Value):
        for node in within(term.node):
            if isinstance(node, Word):
                yield node.text
    elif isinstance(term, Call):
        for one in term.arguments:
            yield from words_of(one)
    elif isinstance(term, Field):
        yield from words_of(term.of)
    elif isinstance(term, If):
        for one in (term.test, term.then, term.other):
            yield from words_of(one)
    elif isinstance(term, Tuple):
        for one in term.items:
            yield from words_of(one)
    elif isinstance(term, Record):
        for _, one in term.pairs:
            yield from words_of(one)


class Cases(Translator):
    """Makes the expressions of one function, of definitions by cases too."""

    def cases(self, made, arguments, want):
        clauses, arguments = self.chosen(made, list(arguments))
        if len(clauses) == 1 and all(is_variable(one) for one in clauses[0][0]):
            patterns, body = clauses[0]
            values = {one.text: value for one, value in zip(patterns, arguments)}
            return self.value(self.normal(replaced(body, values)), want)
        columns = [at for at in range(len(arguments))
                   if not all(is_variable(patterns[at]) for patterns, _ in clauses)]
        if any(head_of(patterns[at]) in LISTS for patterns, _ in clauses for at in columns):
            raise NoForm(f"`{short(made.path)}` goes through a list")
        if any(isinstance(patterns[at], (Number, Tuple)) for patterns, _ in clauses
               for at in columns):
            raise NoForm(f"`{short(made.path)}` is by cases of a number or a pair")
        clauses = self.inverted(clauses, columns, arguments)
        truth = [at for at in columns if any(head_of(p[at]) in TRUTH for p, _ in clauses)]
        if truth:
            return self.by_truth(clauses, truth[0], columns, arguments, want)
        return self.match(clauses, columns, arguments, want)

    def chosen(self, made, arguments):
        """The clauses that an argument leaves which is written as a value of an enum."""
        clauses = made.clauses
        if any(len(patterns) != len(arguments) for patterns, _ in clauses):
            raise NoForm(f"`{short(made.path)}` gives a function")
        for at, argument in enumerate(arguments):
            if not is_constructor(argument):
                continue
            left, is_sure = [], True
            for patterns, body in clauses:
                if is_variable(patterns[at]):
                    left.append((patterns, body))
                elif head_of(patterns[at]) == head_of(argument):
                    values = {}
                    for one, two in zip(inner_of(patterns[at]), inner_of(argument)):
                        is_sure = is_sure and is_variable(one)
                        if is_variable(one):
                            values[one.text] = two
                    left.append(((*patterns[:at], Name("_"), *patterns[at + 1:]),
                                 replaced(body, values)))
                if left and all(is_variable(one) for one in left[-1][0]):
                    break
            if is_sure:
                clauses = tuple(left)
        return clauses, arguments

    def inverted(self, clauses, columns, arguments):
        """Clauses whose patterns are of the values that there are in Rust: an argument may be what
        a definition gives for such a value."""
        for at in columns:
            argument = arguments[at]
            if not isinstance(argument, Call) or len(argument.arguments) != 1:
                continue
            made = definition(argument.head) if argument.head.startswith("Rattle.gltf_") else None
            if not made or len(made.clauses) == 1 or self.functions.by_head.get(argument.head):
                continue
            if any(len(patterns) != 1 for patterns, _ in made.clauses):
                continue
            found = []
            for patterns, body in clauses:
                inner = [(patterns[at], {})] if is_variable(patterns[at]) else inverses(
                    made, patterns[at])
                if not inner:
                    raise NoForm(f"`{short(head_of(patterns[at]))}` is of no value in Rust")
                found += [((*patterns[:at], one, *patterns[at + 1:]), replaced(body, values))
                          for one, values in inner]
            clauses, arguments[at] = tuple(found), argument.arguments[0]
        return clauses

    def by_truth(self, clauses, at, columns, arguments, want):
        """A choice by a truth value."""
        parts = []
        for truth in TRUTH:
            left = [((*patterns[:at], Name("_"), *patterns[at + 1:]), body)
                    for patterns, body in clauses
                    if is_variable(patterns[at]) or head_of(patterns[at]) == truth]
            if len(columns) > 1 or len(left) != 1:
                raise NoForm("cases of a truth value and of others")
            patterns, body = left[0]
            values = {one.text: value for one, value in zip(patterns, arguments)}
            parts.append(self.normal(replaced(body, values)))
        return self.choice(self.value(arguments[at], BOOL), *parts, want)

    def match(self, clauses, columns, arguments, want):
        """A `match` of the arguments of some columns."""
        found = [self.looked_at(self.value(arguments[at])) for at in columns]
        arms = []
        for patterns, body in clauses:
            values = {one.text: value for at, (one, value) in enumerate(zip(patterns, arguments))
                      if at not in columns or is_variable(one)}
            texts = []
            for at, (_, type_, is_borrowed, base) in zip(columns, found):
                texts.append(self.pattern(patterns[at], type_, is_borrowed, base, body, values))
            body = self.normal(replaced(body, values))
            arms.append((tuple(texts), self.node(body, want) if want else self.value(body).node))
        nodes = [node for node, _, _, _ in found]
        node = nodes[0] if len(nodes) == 1 else Pair(tuple(nodes))
        return Value(Match(node, tuple(self.arms(arms))), want or BOOL)

    def looked_at(self, value):
        """What a match is of: the expression, its type, whether it is borrowed, and the name that
        what is in it gets."""
        node, type_ = value.node, value.type
        is_borrowed = type_.kind == "ref"
        base = self.base_name(node)
        if not is_borrowed and isinstance(node, (Get, Word)) and not self.types.is_copied(type_):
            node, is_borrowed = Prefix("&", node), True
        return node, type_.target(), is_borrowed, base

    def base_name(self, node):
        if isinstance(node, Prefix):
            return self.base_name(node.of)
        if isinstance(node, Get) and not node.name.isdigit():
            return node.name
        if isinstance(node, Send) and node.name == "get" and isinstance(node.of, (Get, Word)):
            name = node.of.name if isinstance(node.of, Get) else node.of.text
            return re.sub("(?<=sh)es$|(?<=ch)es$|s$", "", name)
        return node.text if isinstance(node, Word) and node.text != "self" else None

    def pattern(self, pattern, type_, is_borrowed, base, body, values):
        """The text of a pattern. What its variables are goes into `values`."""
        if is_variable(pattern):
            return "_"
        if head_of(pattern) in (SOME, NONE):
            if not type_.is_named("Option"):
                raise NoForm("an option of no known type")
            name, fields = short(head_of(pattern)), [("", one) for one in type_.parts]
        else:
            name, fields = self.variant_of(pattern, type_)
            base = base if type_.is_named("Checked") else None
        inner = []
        for one, (field, made) in zip(inner_of(pattern), fields):
            text = self.inside(one, made, is_borrowed, base if len(fields) == 1 else None, body,
                               values)
            inner.append(text if field in ("", text) else f"{field}: {text}")
        if inner and fields[0][0]:
            return f"{name} {{ {', '.join(inner)} }}"
        return f"{name}({', '.join(inner)})" if inner else name

    def variant_of(self, pattern, type_):
        """The name of a variant that a pattern is of, and its fields."""
        found = VARIANT.fullmatch(head_of(pattern))
        if not found:
            raise NoForm(f"`{short(head_of(pattern))}` is no variant")
        path = (found[1], *found[2].split("."))
        fields = self.types.variants(path).get(found[3])
        if path != type_.path or fields is None:
            raise NoForm(f"a value of {path[-1]} is of another type here")
        return (f"{self.shown(path)}::{found[3]}",
                [(name, self.types.instance(one, type_)) for name, one in fields])

    def inside(self, pattern, made, is_borrowed, base, body, values):
        """The text of a pattern in another."""
        if not is_variable(pattern):
            return self.pattern(pattern, made.target(), is_borrowed or made.kind == "ref", base,
                                body, values)
        if pattern.text == "_" or pattern.text not in names_in(body):
            return "_"
        type_ = Type("ref", (made,)) if is_borrowed and made.kind != "ref" else made
        used = {word for name, value in values.items() if name in names_in(body)
                for word in words_of(value)}
        used |= set(words_of(body))
        target = type_.target()
        by_type = snake(target.path[-1]) if target.kind == "named" and target.path[-1] not in (
            NUMBERS | {"T", "Vec", "Option", "str", "IndexTo", "Index"}) else pattern.text
        names = [base or by_type, by_type, pattern.text, f"{pattern.text}_"]
        name = next(one for one in names if one and one not in used)
        values[pattern.text] = Value(Word(name), type_)
        return name

    def arms(self, arms):
        """The arms with what they have in common put together, and `None` last."""
        made, are_apart = [], are_disjoint([texts for texts, _ in arms])
        for texts, node in arms:
            before = made if are_apart else made[-1:]
            merged = next(((one, text) for one in before if one[1] == node
                           and (text := self.merged(one[0], texts))), None)
            if merged:
                made[made.index(merged[0])] = (merged[1], node)
            else:
                made.append((texts, node))
        if len(made) == 2 and made[0][0] == ("None",):
            made.reverse()
        made = [("_" if all(one == "_" for one in texts) else
                 texts[0] if len(texts) == 1 else f"({', '.join(texts)})", node)
                for texts, node in made]
        return self.guarded(made)

    def guarded(self, arms):
        """Two arms of which the first is a choice that may end as the second."""
        if len(arms) == 2 and isinstance(arms[0][1], Choose) and arms[0][1].other == arms[1][1]:
            pattern, node = arms[0]
            test = flat(node.test)
            if test and not isinstance(node.then, (Choose, Match)):
                return [(f"{pattern} if {test}", node.then), ("_", arms[1][1])]
        return arms

    def merged(self, one, two):
        """The pattern of two arms, if they differ in one place."""
        places = [at for at in range(len(one)) if one[at] != two[at]]
        if len(places) != 1 or "_" in (one[places[0]], two[places[0]]):
            return None
        at = places[0]
        if (text := merged_texts(one[at], two[at])) is None:
            return None
        return (*one[:at], text, *one[at + 1:])


def are_disjoint(patterns):
    """Whether the order of patterns doesn't matter, because each is of another variant."""
    heads = [re.match(r"[\w:]*", texts[0])[0] for texts in patterns]
    return len(patterns[0]) == 1 and "_" not in heads and all(
        heads.count(head) == 1 or not re.search(r"\b[a-z_]", texts[0].partition(head)[2])
        for head, texts in zip(heads, patterns))


def merged_texts(one, two):
    """Two patterns with a bar between them, which stands as far within as it can."""
    head, bracket, inner = one.partition("(")
    if bracket and two.startswith(f"{head}(") and "," not in inner:
        text = merged_texts(inner[:-1], two[len(head) + 1:-1])
        return text and f"{head}({text})"
    return f"{one} | {two}"
