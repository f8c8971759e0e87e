"""Tools that are Python files without an ending, as modules."""

import importlib.machinery
import importlib.util
import sys
from pathlib import Path
from types import ModuleType

TOOLS = Path(__file__).resolve().parent.parent


def load_tool(name: str) -> ModuleType:
    loader = importlib.machinery.SourceFileLoader(name.replace("-", "_"), str(TOOLS / name))
    described = importlib.util.spec_from_loader(loader.name, loader)
    assert described is not None
    made = importlib.util.module_from_spec(described)
    sys.modules[loader.name] = made
    loader.exec_module(made)
    return made
