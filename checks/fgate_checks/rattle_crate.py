"""The crates: their modules, what of them can be named from outside, and where."""

from __future__ import annotations

import re
from collections.abc import Iterator
from dataclasses import dataclass
from pathlib import Path

from fgate_checks.rattle_code import (
    Item,
    read_items,
    split_impl,
    without_generics,
)
from fgate_checks.rattle_specs import definition
from fgate_checks.repository import CRATES, crate_folders

Names = tuple[str, ...]
Seen = dict[tuple[Names, str], Names]


@dataclass
class Shown:
    """What a crate shows: a heading, the item, and what it stands in."""

    name: str
    item: Item
    module: Names
    holder: str


class Crate:
    """A crate's modules by their paths, and what of them is public."""

    def __init__(self, folder: Path) -> None:
        self.folder, self.name = folder, folder.name
        self.modules: dict[Names, list[Item]] = {}
        self.order: list[Names] = []
        self.texts: dict[Path, str] = {}
        root = next(
            (
                folder / "src" / name
                for name in ("lib.rt", "main.rt")
                if (folder / "src" / name).is_file()
            )
        )
        self.program = root.name == "main.rt"
        self.read_module((), root, folder / "src")
        self.seen = self.what_is_public()

    def read_module(self, path: Names, file: Path, inside: Path) -> None:
        """Reads a module's file, and those of the modules in it."""
        text = file.read_text(encoding="utf-8")
        self.texts[file] = text
        self.keep_module(path, read_items(text, 0, len(text), file), inside)

    def keep_module(self, path: Names, items: list[Item], inside: Path) -> None:
        """Keeps a module's items, and reads the modules in it."""
        self.modules[path] = items
        self.order.append(path)
        for item in items:
            if item.kind != "mod":
                continue
            below = path + (item.name,)
            file = inside / (item.name + ".rt")
            if item.items:
                self.keep_module(below, item.items, inside / item.name)
            elif file.is_file():
                self.read_module(below, file, inside / item.name)
            elif (inside / item.name / "mod.rt").is_file():
                self.read_module(
                    below, inside / item.name / "mod.rt", inside / item.name
                )

    def what_is_public(self) -> Seen:
        """The shortest path to each item that can be named from outside."""
        seen: Seen = {}
        waiting: list[tuple[Names, Names]] = [((), ())]
        done: set[tuple[Names, Names]] = set()
        while waiting:
            module, shown = waiting.pop(0)
            if (module, shown) in done:
                continue
            done.add((module, shown))
            for item in self.modules[module]:
                if not item.is_public:
                    continue
                if item.kind == "mod" and module + (item.name,) in self.modules:
                    waiting.append((module + (item.name,), shown + (item.name,)))
                elif item.kind == "use":
                    for target, name in leaves(item.text):
                        self.see_used(seen, waiting, module, target, shown, name)
                else:
                    see(seen, (module, item.name), shown + (item.name,))
        return seen

    def see_used(
        self,
        seen: Seen,
        waiting: list[tuple[Names, Names]],
        module: Names,
        target: Names,
        shown: Names,
        name: str,
    ) -> None:
        """Sees what a `use` shows: a module's items, a module or one item."""
        base = module
        while target and target[0] in ("crate", "self", "super"):
            steps: dict[str, Names] = {"crate": (), "self": base, "super": base[:-1]}
            base = steps[target[0]]
            target = target[1:]
        place = base + target[:-1]
        if place not in self.modules:
            return
        if name == "*":
            waiting.append((place, shown))
        elif place + target[-1:] in self.modules:
            waiting.append((place + target[-1:], shown + (name,)))
        else:
            see(seen, (place, target[-1]), shown + (name,))

    def path_of_type(self, module: Names, name: str) -> str | None:
        """The path that names a type or a trait: none where it is private.

        Of another crate's it is the bare name.
        """
        name = re.sub(r"^(?:&(?:'\w+ )?(?:mut )?)+", "", without_generics(name))
        short = name.split("::")[-1]
        kinds = ("struct", "enum", "union", "type", "trait")
        mine = [
            path
            for path, items in self.modules.items()
            for item in items
            if item.kind in kinds and item.name == short
        ]
        if not mine:
            return short
        shown = self.seen.get((module if module in mine else mine[0], short))
        return "::".join(shown) if shown else None

    def functions(self) -> Iterator[Shown]:
        """Each public function and trait, in the order of modules and their text."""
        for module in self.order:
            for item in self.modules[module]:
                if item.kind == "fn":
                    yield from self.free(module, item)
                elif item.kind == "trait":
                    yield from self.of_trait(module, item)
                elif item.kind == "impl":
                    yield from self.methods(module, item)

    def free(self, module: Names, item: Item) -> Iterator[Shown]:
        """A function that stands in a module, where it is shown."""
        shown = self.seen.get((module, item.name))
        if shown is None and self.program and (item.name == "main" or item.clauses):
            shown = module + (item.name,)
        if shown is not None:
            yield Shown("::".join(shown), item, module, "")

    def of_trait(self, module: Names, item: Item) -> Iterator[Shown]:
        """A public trait and its methods."""
        path = self.seen.get((module, item.name))
        if path is None:
            return
        name = "::".join(path)
        yield Shown(name, item, module, "")
        for method in item.items:
            if method.kind == "fn":
                yield Shown(f"{name}::{method.name}", method, module, item.text)

    def methods(self, module: Names, item: Item) -> Iterator[Shown]:
        """The methods of an `impl` that are shown."""
        trait, owner = split_impl(item.text)
        path = self.path_of_type(module, owner)
        if path is None or (trait and self.path_of_type(module, trait) is None):
            return
        for method in item.items:
            if method.kind != "fn":
                continue
            if trait is None and method.is_public:
                yield Shown(f"{path}::{method.name}", method, module, item.text)
            elif trait is not None and method.clauses:
                name = f"<{owner} as {trait}>::{method.name}"
                yield Shown(name, method, module, item.text)

    def around(self, file: Path, at: int) -> str | None:
        """The name of the function, public or not, whose text holds this place."""
        best: tuple[Names, Item | None, Item] | None = None
        for module in self.order:
            for item in self.modules[module]:
                if item.file != file:
                    continue
                for owner, function in owned(item):
                    if function.kind == "fn" and function.start <= at < function.end:
                        best = (module, owner, function)
        if best is None:
            return None
        module, owner, function = best
        if owner is None or owner.kind == "mod":
            return "::".join(module[-1:] + (function.name,))
        if owner.kind == "trait":
            return owner.name + "::" + function.name
        trait, kind = split_impl(owner.text)
        return (
            f"<{kind} as {trait}>::{function.name}"
            if trait
            else without_generics(kind) + "::" + function.name
        )

    def definitions(self, function: Item) -> Iterator[tuple[str, Path, str | None]]:
        """The definitions that are a whole clause, each with its file and text."""
        for clause in function.clauses:
            body = clause.body
            if not re.fullmatch(r"[A-Z]\w*", body):
                continue
            used = re.search(
                r"ghost use Rattle\.(\w+)\.specs\.([\w.]+)\.\{[^}]*\b" + body + r"\b",
                self.texts[function.file],
            )
            if used and "declared" not in used.group(2).split("."):
                place = used.group(2).replace(".", "/") + ".antt"
                file = CRATES / used.group(1) / "specs" / place
                if file.is_file():
                    text = file.read_text(encoding="utf-8")
                    yield body, file, definition(text, body)


def see(seen: Seen, item: tuple[Names, str], shown: Names) -> None:
    """Keeps the shortest path that shows an item."""
    if item not in seen or len(shown) < len(seen[item]):
        seen[item] = shown


def leaves(text: str, before: Names = ()) -> Iterator[tuple[Names, str]]:
    """The paths of a `use`, each with the name that it gives."""
    text = text.strip()
    brace = text.find("{")
    if brace < 0:
        path, _, other = text.partition(" as ")
        parts = before + tuple(
            part.strip() for part in path.split("::") if part.strip()
        )
        yield (parts[:-1], parts[-2]) if parts[-1] == "self" else (
            parts,
            other.strip() or parts[-1],
        )
        return
    start = before + tuple(
        part.strip() for part in text[:brace].split("::") if part.strip()
    )
    depth, part = 0, ""
    for sign in text[brace + 1 : text.rindex("}")]:
        depth += (sign == "{") - (sign == "}")
        if sign == "," and not depth:
            if part.strip():
                yield from leaves(part, start)
            part = ""
        else:
            part += sign
    if part.strip():
        yield from leaves(part, start)


def owned(item: Item) -> list[tuple[Item | None, Item]]:
    """The item, and what is in it, each with the item that it stands in."""
    return [(None, item), *((item, inner) for inner in item.items)]


def all_crates() -> list[Crate]:
    """Each crate that has sources, by name."""
    folders = sorted(crate_folders())
    return [Crate(folder) for folder in folders if (folder / "src").is_dir()]
