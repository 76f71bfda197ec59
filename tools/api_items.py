"""The items of the crates as users name them: where each is shown, and how its declaration reads."""
import re
import textwrap

from sources import crates, trait_and_type

# The crate that users of documents name.
ROOT_CRATE = "gltf_json"
WIDTH = 100
# The traits of std that are shown; of the others those that `gltf_json` names.
STD_TRAITS = {"Clone", "Copy", "Debug", "Default", "Display", "Eq", "Error", "From", "Hash", "Ord",
              "PartialEq", "PartialOrd"}


class Crates:
    """Names looked up through the re-exports of the crates."""

    def __init__(self):
        self.roots = crates()

    def find(self, module, path, depth=0):
        """What a path names from a module: ("item", module, item), ("mod", module, module), or
        ("kit", path) for what another library has."""
        if depth > 20:
            return None
        first, rest = path[0], path[1:]
        if first == "crate":
            return self.inside(self.roots[module.crate], rest, depth)
        if first == "self":
            return self.inside(module, rest, depth)
        if first == "super":
            return self.inside(self.parent(module), rest, depth)
        if first in module.modules or first in module.items or first in module.uses:
            return self.inside(module, path, depth)
        if first in self.roots:
            return self.inside(self.roots[first], rest, depth)
        return ("kit", "::".join(path))

    def parent(self, module):
        found = self.roots[module.crate]
        for name in module.path[:-1]:
            found = found.modules[name]
        return found

    def inside(self, module, path, depth):
        if not path:
            return ("mod", module, module)
        first, rest = path[0], path[1:]
        if first in module.modules and rest:
            return self.inside(module.modules[first], rest, depth)
        # A declared item may have the name of a macro that the module uses, as `Error` does.
        if first in module.items and not rest:
            return ("item", module, module.items[first])
        if first in module.uses and module.uses[first] != list(path):
            return self.find(module, [*module.uses[first], *rest], depth + 1)
        if first in module.modules:
            return ("mod", module, module.modules[first])
        return ("kit", "::".join(path))


class Items:
    """The modules of a crate, each with the items that it names."""

    def __init__(self, crate):
        self.crates = Crates()
        self.implied = {}
        self.blocks = self.impl_blocks()
        self.modules = []
        self.places = {}
        self.aliases = {}
        self.collect(self.crates.roots[crate], (crate,))
        self.place()
        self.hide()

    def impl_blocks(self):
        """The impls of each type: a list of blocks by the item's identity."""
        blocks = {}

        def visit(module):
            for block in module.impls:
                trait, target = trait_and_type(block)
                target = target.split("<")[0].lstrip("&").replace("mut ", "")
                # `impl<T: Bound> Trait for T`: each type with the bound has the trait.
                bound = re.match(rf"impl<{target}: (\w+)>", block.signature)
                if bound:
                    self.implied.setdefault(bound.group(1), set()).add(trait)
                found = self.crates.find(module, target.split("::"))
                if found and found[0] == "item":
                    blocks.setdefault(id(self.behind(found)), []).append(block)
            for inner in module.modules.values():
                visit(inner)

        for root in self.crates.roots.values():
            visit(root)
        return blocks

    def behind(self, found):
        """The struct behind an alias of this repository, or the item itself."""
        item = found[2]
        if item.kind == "type":
            target = item.signature.partition("= ")[2].split("<")[0]
            aimed = self.crates.find(found[1], target.split("::"))
            if aimed and aimed[0] == "item":
                return self.behind(aimed)
        return item

    def collect(self, module, path):
        """The modules below one, each with the items that it names."""
        names, inner = {}, {}
        for name, item in module.items.items():
            if item.public:
                names[name] = ("item", module, item)
        for name in sorted(module.public_modules):
            inner[name] = module.modules[name]
        for name in sorted(module.public_uses):
            found = self.crates.find(module, module.uses[name])
            if found and found[0] == "mod":
                inner[name] = found[2]
            elif found:
                names[name] = found
        self.modules.append((path, module.doc, names))
        for name in sorted(inner):
            self.collect(inner[name], (*path, name))

    def place(self):
        """Chooses where each item is shown: by its own name in the deepest module that names it."""
        for path, _, names in self.modules:
            for name, found in names.items():
                if found[0] != "item":
                    continue
                here = (len(path), name == found[2].name, path, name)
                there = self.places.get(id(found[2]))
                if there is None or here[:2] > there[:2]:
                    self.places[id(found[2])] = here

    def hide(self):
        """Finds the types that only aliases name, each with the aliases."""
        for _, _, names in self.modules:
            for found in names.values():
                if found[0] == "item" and found[2].kind == "type":
                    behind = self.behind(found)
                    if id(behind) not in self.places:
                        aliases = self.aliases.setdefault(id(behind), (behind, {}))[1]
                        aliases[id(found[2])] = found

    def only_behind(self, found):
        """The type that only this alias names."""
        if found[2].kind != "type":
            return None
        behind, aliases = self.aliases.get(id(self.behind(found)), (None, {}))
        return behind if len(aliases) == 1 else None

    def traits(self, names):
        """The traits that are shown, of those that are written and those that follow from them."""
        todo, known = list(names), set()
        while todo:
            name = todo.pop().removeprefix("fmt::").removeprefix("std::error::")
            if name not in known:
                known.add(name)
                todo += self.implied.get(name, ())
        named = {name for _, _, names in self.modules for name, found in names.items()
                 if found[0] == "item" and found[2].kind == "trait"}
        return sorted(t for t in known if t.split("<")[0] in STD_TRAITS | named)

    def declaration(self, item):
        if item.kind == "trait":
            ghosts = [g for g in item.ghosts if g]
            inner = [f"    // ghost members: {', '.join(ghosts)}"] if ghosts else []
            return [f"pub {item.signature} {{", *inner, "}"]
        if item.kind not in ("struct", "enum") or item.signature.endswith(")"):
            return within(f"pub {item.signature}" + ("" if item.kind == "fn" else ";"))
        members = [m for m in item.members if m.public]
        if not members:
            hidden = " { .. }" if item.members else ";"
            return [f"pub {item.signature}{hidden}"]
        front = "pub " if item.kind == "struct" else ""
        lines = [f"pub {item.signature} {{"]
        for member in members:
            lines += documented(member.doc, [f"    {front}{member.signature},"], "    ")
        if len(members) < len(item.members):
            lines.append("    // and private fields")
        return [*lines, "}"]


def documented(doc, lines, indent=""):
    """Lines below their docstring, whose links are names."""
    front = f"{indent}/// "
    doc = re.sub(r"\[(`[^`]*`)\]", r"\1", doc)
    return textwrap.wrap(doc, WIDTH, initial_indent=front, subsequent_indent=front) + lines


def within(signature, indent=""):
    """A signature in one line, or with a line for each parameter if it is too long."""
    line = indent + signature
    front, _, rest = signature.partition("(")
    if len(line) <= WIDTH or not rest:
        return [line]
    parts, depth, part = [], 0, ""
    for at, c in enumerate(rest):
        if c == ")" and depth == 0:
            end = rest[at:]
            break
        depth += (c in "(<[") - (c in ")]" or c == ">" and rest[at - 1] not in "-=")
        if c == "," and depth == 0:
            parts.append(part.strip())
            part = ""
        else:
            part += c
    parts.append(part.strip())
    return [f"{indent}{front}(", *(f"{indent}    {p}," for p in parts if p), f"{indent}{end}"]
