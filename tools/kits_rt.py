"""The kit's own `rt` as a module, for the tools beside this file: no command."""

from __future__ import annotations

import importlib.machinery
import importlib.util
import os
import shutil
import sys
from typing import Any

NAME = "kits_rt_module"


def load() -> Any:
    """The module, without running it.

    A kit whose `rt` has another form raises AttributeError, OSError or SyntaxError.
    """
    sys.dont_write_bytecode = True
    found = shutil.which("rt")
    if found is None:
        raise OSError("there is no rt on the path")
    loader = importlib.machinery.SourceFileLoader(NAME, os.path.realpath(found))
    spec = importlib.util.spec_from_loader(NAME, loader)
    if spec is None:
        raise OSError("the kit's rt can't be read")
    module = importlib.util.module_from_spec(spec)
    sys.modules[NAME] = module
    loader.exec_module(module)
    keep_sums(module.rtlib.Crate)
    return module


def keep_sums(crate: Any) -> None:
    """Lets the class of crates find the sum of each crate's files once.

    The files of the crate in the current folder may change, so its sum is found anew.
    """
    find = crate.stamp
    kept: dict[str, str] = {}

    def stamp(self: Any) -> str:
        if os.path.realpath(self.folder) == os.path.realpath(os.getcwd()):
            return str(find(self))
        if self.folder not in kept:
            kept[self.folder] = str(find(self))
        return kept[self.folder]

    crate.stamp = stamp


def search_no_contracts(rtlib: Any) -> None:
    """Lets a proof leave out the search for contracts that no call can meet.

    That changes no verdict of `rattle`.
    """
    help_of = rtlib.help_of

    def without(command: str) -> str:
        return str(help_of(command)).replace("--empty-contracts", "")

    rtlib.help_of = without
