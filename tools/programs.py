"""Loads programs whose files have no suffix, such as `tools/words`, as modules."""
import importlib.machinery
import importlib.util
import os
import sys

TOP = os.path.dirname(os.path.dirname(os.path.abspath(__file__)))


def program_at(path, name):
    """The program at this path, as a module of this name."""
    sys.dont_write_bytecode = True
    loader = importlib.machinery.SourceFileLoader(name, path)
    module = importlib.util.module_from_spec(importlib.util.spec_from_loader(name, loader))
    sys.modules[name] = module
    loader.exec_module(module)
    return module


def tool(name):
    """The program of this name in tools/, as a module."""
    return program_at(f"{TOP}/tools/{name}", f"tools_{name}")
