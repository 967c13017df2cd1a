"""Modules: files that a text uses, each read once; a circle of them is refused."""
import os

from sigc.expand import declarations
from sigc.expand.messages import Refused
from sigc.expand.near import meant
from sigc.expand.parser import parsed
from sigc.expand.scopes import Scope
from sigc.expand.tree import Module, Use
from sigc.read import files_read


class Modules:
    """The modules of one program."""

    def __init__(self, unit, include: tuple[str, ...]):
        self.unit, self.include = unit, include
        self.read: dict[str, Scope] = {}
        self.open: list[tuple[str, str]] = []
        self.here: dict = {}

    def used(self, use: Use, scope: Scope) -> Scope:
        """The scope of a module that is used."""
        at = scope.at(use.at)
        path = f"{use.name} of this text" if use.name in self.here else self.path_of(use, at)
        if path in self.read:
            return self.read[path]
        if path in [it for it, _ in self.open]:
            names = [name for it, name in self.open]
            circle = names[[it for it, _ in self.open].index(path) :]
            raise Refused(at, "modules use each other in a circle", " uses ".join([*circle, use.name]))
        self.open.append((path, use.name))
        self.read[path] = self.scope_of(use, path, at)
        self.open.pop()
        return self.read[path]

    def path_of(self, use: Use, at) -> str:
        folders = [os.path.dirname(use.at.file) or ".", *self.include]
        for it in folders:
            path = os.path.join(it, f"{use.name}.sig")
            if os.path.isfile(path):
                return os.path.normpath(path)
        near = [name for it in folders if os.path.isdir(it) for name in os.listdir(it) if name.endswith(".sig")]
        told = meant(use.name, {it.removesuffix(".sig") for it in near})
        raise Refused(at, f"there is no module {use.name}", f"looked for {use.name}.sig in {', '.join(folders)}; -I DIR names more", *told)

    def scope_of(self, use: Use, path: str, at) -> Scope:
        if use.name in self.here:
            return self.declared(self.here[use.name], Scope(self.unit))
        found, modules, _ = parsed(files_read.read_text(path, files_read.PROGRAM_BYTES), path)
        module = next((it for it in modules if it.name == use.name), None)
        if module is None:
            told = f"it has module {modules[0].name}" if modules else "it has no module"
            raise Refused(at, f"{path} has no module {use.name}", told + f": it begins with module {use.name} = .. end;")
        around = Scope(self.unit)
        around.uses += [self.used(it, around) for it in found.uses]
        return self.declared(module, around)

    def declared(self, module: Module, around: Scope) -> Scope:
        """The scope of a module: what it uses, and what it declares."""
        inner = Scope(self.unit, around)
        inner.uses += [self.used(it, inner) for it in module.locals.uses]
        declarations.declare(module.locals, inner)
        return inner
