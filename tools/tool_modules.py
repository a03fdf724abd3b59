"""Tools of this folder as modules, for what they share: their files have no ending, so `import` doesn't find them."""
import importlib.machinery
import importlib.util
import sys

from launching import TOP


def loaded(name):
    """A tool of this folder as a module."""
    loader = importlib.machinery.SourceFileLoader(f"tool_{name}", str(TOP / "tools" / name))
    module = importlib.util.module_from_spec(importlib.util.spec_from_loader(loader.name, loader))
    sys.modules[loader.name] = module
    loader.exec_module(module)
    return module
