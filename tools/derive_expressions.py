"""Expressions of Rust for the terms of definitions.

A term over the parameters of a function becomes an expression. A definition for which a function of
Rust stands becomes a call of that function; another one is unfolded. What the script has no
expression for raises `NoForm`."""
from derive_forms import (BOOL, LITERAL, OPTION, STR, VARIANT, WIDTHS, NoForm, Value, bare,
                          borrowed, is_list, is_now, is_std, option, short)
from derive_functions import Type
from derive_rust import Apply, Build, Cast, Choose, Get, Prefix, Send, Word, flat
from derive_std import Std
from derive_terms import (PRELUDE, Call, Field, If, Name, Number, Record, Tuple, definition,
                          names_in, replaced)


class Translator(Std):
    """Makes the expressions of one function."""

    def __init__(self, functions, function):
        self.functions, self.types, self.function = functions, functions.types, function
        self.module = self.types.sources.module(function.here)
        self.kinds, self.known, self.steps = {}, {}, 0

    # Terms over values

    def given(self, name):
        """The value that a parameter is."""
        return Value(Word(name), self.function.parameters[name])

    def normal(self, term):
        """A term in which a field of a value is a value, and a view of one the value itself."""
        if isinstance(term, Field):
            return self.normal_field(self.normal(term.of), term.name)
        if isinstance(term, Call):
            arguments = tuple(self.normal(one) for one in term.arguments)
            if is_std(term.head, "option_map") and is_now(arguments[0]):
                return arguments[1]
            if is_std(term.head, "option_copied"):
                return arguments[0]
            return self.recalled(Call(term.head, arguments))
        if isinstance(term, If):
            return If(*(self.normal(one) for one in (term.test, term.then, term.other)))
        if isinstance(term, Tuple):
            return Tuple(tuple(self.normal(one) for one in term.items))
        if isinstance(term, Record):
            return Record(tuple((name, self.normal(one)) for name, one in term.pairs))
        return term

    def recalled(self, term):
        """The parameter that `requires` says a term is."""
        return self.known.get(term, term)

    def normal_field(self, of, name):
        if isinstance(of, Tuple) and name.isdigit():
            return of.items[int(name)]
        if not isinstance(of, Value):
            if isinstance(of, Name) and name == "now":
                return of
            return Field(of, name)
        if name in ("now", "entry") or name == "items" and is_list(of.type):
            return of
        made = self.types.field(of.type, name)
        if not made:
            return Field(of, name)
        node = Get(bare(of.node), name)
        self.kinds[node] = of
        return Value(node, made)

    # Terms to values

    def value(self, term, want=None):
        """The value of a term."""
        self.steps += 1
        if self.steps > 4000:
            raise NoForm("the definition is recursive")
        if isinstance(term, Value):
            return term
        if isinstance(term, Number):
            return Value(Word(term.text), LITERAL)
        if isinstance(term, If):
            return self.choice(self.value(term.test, BOOL), term.then, term.other, want)
        if isinstance(term, Record):
            return self.record(term, want)
        if isinstance(term, Name):
            return self.called(term.text, (), want)
        if isinstance(term, Call):
            return self.called(term.head, term.arguments, want)
        if isinstance(term, Field):
            inner = self.value(term.of)
            made = self.normal_field(inner, term.name)
            if isinstance(made, Value):
                return made
            raise NoForm(f"`{term.name}` is no field")
        raise NoForm(f"a term of the form {type(term).__name__}")

    def choice(self, test, then, other, want):
        then, other = self.node(then, want), self.node(other, want)
        return Value(Choose(test.node, then, other), want or BOOL)

    def record(self, term, want):
        if not want or want.kind != "named":
            raise NoForm("a record of no known type")
        fields = []
        for name, one in term.pairs:
            made = self.types.field(want, name)
            if not made:
                raise NoForm(f"`{name}` is no field of {want.path[-1]}")
            fields.append((name, self.node(one, made)))
        return Value(Build(self.shown(want.path), tuple(fields)), want)

    def called(self, head, arguments, want):
        """The value of a name for its arguments."""
        made = self.variant(head, arguments, want) or self.index_number(head, arguments)
        made = made or self.standing_for(head, arguments)
        made = made or self.built_in(head, arguments, want)
        if made:
            return made
        made = definition(head)
        if not made or len(made.clauses[0][0]) > len(arguments):
            if "." not in head:
                raise NoForm(f"no `use` line of the definition's file names `{head}`")
            raise NoForm(f"no function stands for `{short(head)}`")
        return self.unfolded(made, arguments, want)

    def unfolded(self, made, arguments, want):
        """The value of what a definition says."""
        count = len(made.clauses[0][0])
        if len(made.clauses) > 1 or not all(isinstance(one, Name) for one in made.clauses[0][0]):
            return self.cases(made, arguments, want)
        patterns, body = made.clauses[0]
        values = {one.text: value for one, value in zip(patterns, arguments)}
        body = self.normal(replaced(body, values))
        if count < len(arguments):
            raise NoForm(f"`{short(made.path)}` gives a function")
        return self.value(body, want)

    def cases(self, made, arguments, want):
        """The value of a definition by cases."""
        raise NoForm(f"`{short(made.path)}` is by cases")

    def variant(self, head, arguments, want):
        """A value of an enum."""
        if head in (f"{PRELUDE}.Some", f"{PRELUDE}.None"):
            if not arguments:
                return Value(Word("None"), want or OPTION)
            inner = want.parts[0] if want and want.is_named("Option") and want.parts else None
            made = self.value(arguments[0], inner)
            node = self.fitted(made, inner) if inner else made.node
            return Value(Apply("Some", (node,)), want or option(made.type))
        found = VARIANT.fullmatch(head)
        if not found:
            return None
        path = (found[1], *found[2].split("."))
        made = Type("named", (), path)
        text = f"{self.shown(path)}::{found[3]}"
        fields = self.types.variants(path).get(found[3])
        if fields is None or len(fields) != len(arguments):
            raise NoForm(f"{path[-1]}::{found[3]} has other fields")
        nodes = tuple(self.node(one, type_) for one, (_, type_) in zip(arguments, fields))
        if fields and fields[0][0]:
            return Value(Build(text, tuple(zip((name for name, _ in fields), nodes))), made)
        return Value(Apply(text, nodes) if nodes else Word(text), made)

    def shown(self, path):
        """The name of an item in this module."""
        if path[:-1] == self.function.here:
            return path[-1]
        for name in self.module.uses:
            if self.types.full((name,), self.function.here) == path:
                return name
        raise NoForm(f"a `use` line of {path[0]}::{path[-1]} is missing")

    # Values of the wanted types

    def node(self, term, want):
        """The expression of a term as a value of a type."""
        return self.fitted(self.value(term, want), want) if want else self.value(term).node

    def fitted(self, value, want):
        """The expression of a value as one of another type."""
        made, node = value.type, value.node
        if want.kind == "ref":
            if made.kind == "ref":
                return self.as_text(node, made, want)
            return self.as_text(node, made, want) if made.is_named("String") else borrowed(node)
        if made.kind == "ref" and not is_list(made):
            if isinstance(node, Get):
                return node
            if not self.types.is_copied(made.target()):
                raise NoForm(f"`{flat(node)}` is only borrowed")
            node, made = Prefix("*", node), made.target()
        if want.path[-1:] == made.path[-1:] or want.path[-1:] == ("bool",):
            return node
        if want.is_named("usize") and value.usize:
            return value.usize
        if want.path and made.path and {want.path[-1], made.path[-1]} <= set(WIDTHS):
            if WIDTHS[want.path[-1]] < WIDTHS[made.path[-1]]:
                raise NoForm(f"`{flat(node)}` may be too large for {want.path[-1]}")
            return Cast(node, want.path[-1])
        return node

    def as_text(self, node, made, want):
        if want.target() == STR and made.target().is_named("String"):
            return Send(bare(node), "as_str")
        is_bytes = want.target().kind == "slice" and want.target().parts[0].is_named("u8")
        if is_bytes and (made.target() == STR or made.target().is_named("String")):
            if isinstance(node, Word) and node.text.startswith('"'):
                return Word(f"b{node.text}")
            return Send(bare(node.of if isinstance(node, Send) and node.name == "as_str" else node),
                        "as_bytes")
        return node

    # Functions of Rust

    def standing_for(self, head, arguments, view=""):
        """The call of a function whose contract says that its result is this, or that it is if a
        definition sees it."""
        term = Call(head, tuple(arguments)) if arguments else Name(head)
        found = [one for one in self.functions.by_head.get(head, ()) if one.view == view]
        missing = None
        for one in sorted(found, key=lambda one: one.here != self.function.here):
            given = {}
            if (one.path, one.line) == (self.function.path, self.function.line) or not self.unify(
                    one.term, term, one.parameters, given):
                continue
            name = self.called_as(one)
            if name and (made := self.call(one, name, given)):
                return made
            missing = missing or (one if self.is_near(one) else None)
        if missing:
            raise NoForm(f"a `use` line of {missing.here[0]}::{missing.name} is missing")
        return None

    def is_near(self, one):
        """Whether a function could be called here, if a `use` line named it."""
        crates = (self.function.here[0], *self.functions.below[self.function.here[0]])
        return one.public and not one.owner and one.here[0] in crates

    def called_as(self, one):
        """What a function is called in this module, or None if it has no name here."""
        if one.owner and one.is_method:
            is_near = one.here[0] == self.function.here[0]
            return one.name if one.public or is_near else None
        if one.owner:
            return None
        if one.here == self.function.here:
            return one.name
        for name in self.module.uses:
            if self.types.full((name,), self.function.here) == (*one.here, one.name):
                return name
        return None

    def call(self, one, name, given):
        """The call of a function with its parameters."""
        for parameter, term in one.equal_parameters(self.functions):
            given.setdefault(parameter, self.normal(replaced(term, given)))
        nodes = []
        for parameter, type_ in one.parameters.items():
            if parameter not in given:
                return None
            if parameter == "self":
                receiver = bare(self.value(given["self"]).node)
                continue
            nodes.append(self.node(given[parameter], type_))
        if one.is_method:
            return Value(Send(receiver, name, tuple(nodes)), one.result)
        return Value(Apply(name, tuple(nodes)), one.result)

    def unify(self, pattern, term, parameters, given):
        """Whether a term is that of a contract for some arguments, which go into `given`."""
        if isinstance(pattern, Name) and pattern.text in parameters:
            return given.setdefault(pattern.text, term) == term
        if isinstance(pattern, Name):
            return pattern == term
        if isinstance(pattern, Field):
            if pattern.name in ("now", "items", "entry"):
                return self.unify(pattern.of, term, parameters, given)
            if isinstance(term, Value) and isinstance(term.node, Get):
                return term.node.name == pattern.name and self.unify(
                    pattern.of, self.kinds[term.node], parameters, given)
            return isinstance(term, Field) and term.name == pattern.name and self.unify(
                pattern.of, term.of, parameters, given)
        if isinstance(pattern, Call):
            if is_std(pattern.head, "option_map") and is_now(pattern.arguments[0]):
                return self.unify(pattern.arguments[1], term, parameters, given)
            if is_std(pattern.head, "option_copied"):
                return self.unify(pattern.arguments[0], term, parameters, given)
            if isinstance(term, Call) and term.head == pattern.head and len(
                    term.arguments) == len(pattern.arguments):
                return all(self.unify(one, two, parameters, given)
                           for one, two in zip(pattern.arguments, term.arguments))
            return self.unify_inverse(pattern, term, parameters, given)
        return pattern == term

    def unify_inverse(self, pattern, term, parameters, given):
        """As `unify`, if the pattern is what a definition sees in a value."""
        if len(pattern.arguments) != 1 or not isinstance(term, (Call, Name)):
            return False
        head, arguments = (term.head, term.arguments) if isinstance(term, Call) else (term.text, ())
        made = self.standing_for(head, arguments, pattern.head)
        if made:
            return self.unify(pattern.arguments[0], made, parameters, given)
        made = definition(pattern.head) if pattern.head.startswith("Rattle.gltf_") else None
        if not made or len(made.clauses) == 1:
            return False
        found = [one for one, _ in inverses(made, term)]
        return len(found) == 1 and self.unify(pattern.arguments[0], found[0], parameters, given)


def inverses(made, wanted):
    """The patterns of the values for which a definition by cases gives a term or a pattern, each
    with what the variables of that pattern are."""
    found = []
    for patterns, body in made.clauses:
        if len(patterns) != 1:
            return []
        if isinstance(body, Call) and len(body.arguments) == 1 and isinstance(
                body.arguments[0], Name) and (inner := definition(body.head)):
            found += [(replaced(patterns[0], {body.arguments[0].text: one}), values)
                      for one, values in inverses(inner, wanted)]
        elif isinstance(body, Name) and body == wanted:
            found.append((patterns[0], {}))
        elif isinstance(body, Call) and isinstance(wanted, Call) and body.head == wanted.head:
            names, values = {}, {}
            for one, two in zip(body.arguments, wanted.arguments):
                if isinstance(one, Name):
                    names[one.text] = two
                elif isinstance(two, Name):
                    # What the definition makes of a variable: that variable gets the other name.
                    own = dict.fromkeys(names_in(one), two)
                    names.update(own)
                    values[two.text] = replaced(one, own)
            found.append((replaced(patterns[0], names), values))
    return found
