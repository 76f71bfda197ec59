"""Looks up the items of the crates by their paths."""
from sources import ROOT, Module, Reader

CRATES = ROOT / "crates"


class Handwritten(Reader):
    """Reads the modules of a crate. One that isn't written yet is empty."""

    def file_module(self, file, path):
        return super().file_module(file, path) if file.exists() else Module(self.crate, path, "")


class Sources:
    """The modules of the crates, read once each."""

    def __init__(self):
        self.crates = {}

    def module(self, path):
        """The module at a path, or None."""
        if path[0] not in self.crates:
            if not (CRATES / path[0] / "src").exists():
                return None
            self.crates[path[0]] = Handwritten(path[0]).crate_module()
        module = self.crates[path[0]]
        for name in path[1:]:
            module = module.modules.get(name)
            if module is None:
                return None
        return module

    def resolved(self, path, here):
        """The full path of a name that is used in the module `here`."""
        path = tuple(path)
        module = self.module(here)
        if path[0] == "crate":
            path = (here[0], *path[1:])
        elif path[0] == "self":
            path = (*here, *path[1:])
        elif path[0] == "super":
            path = (*here[:-1], *path[1:])
        elif path[0] in module.items or path[0] in module.modules:
            path = (*here, *path)
        elif path[0] in module.uses:
            used = tuple(module.uses[path[0]])
            if used[0] in ("crate", "super", "self"):
                used = self.resolved(used, here)
            elif used[0] in module.modules:
                used = (*here, *used)
            path = (*used, *path[1:])
        if len(path) == 1:
            return path
        holder = self.module(path[:-1])
        if holder and path[-1] not in holder.items and path[-1] in holder.uses:
            return self.resolved((path[-1],), path[:-1])
        item = holder and holder.items.get(path[-1])
        if item and item.kind == "type":
            return self.resolved(item.signature.partition("= ")[2].split("::"), path[:-1])
        return path

    def public(self, path):
        """The path by which other crates name an item: without the private modules that hold it."""
        module, name = tuple(path[:-1]), path[-1]
        while len(module) > 1:
            parent = self.module(module[:-1])
            if module[-1] in parent.public_modules or name not in parent.public_uses:
                break
            module = module[:-1]
        return (*module, name)

    def constants(self, path):
        """The names of the constants of a type."""
        return {one.name for block in self.module(path[:-1]).impls
                if block.signature == f"impl {path[-1]}" for one in block.members
                if one.kind == "const"}

    def item(self, path):
        holder = self.module(path[:-1]) if len(path) > 1 else None
        return holder.items.get(path[-1]) if holder else None
