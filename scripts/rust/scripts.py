"""Scripts of the folders beside this one, as modules."""
import importlib.machinery
import importlib.util
import os
import sys

FOLDER = os.path.dirname(os.path.dirname(os.path.abspath(__file__)))


def load(name):
    """The script at this path in the folder scripts."""
    path, name = f'{FOLDER}/{name}', os.path.basename(name)
    loader = importlib.machinery.SourceFileLoader(name, path)
    module = importlib.util.module_from_spec(importlib.util.spec_from_loader(name, loader))
    sys.modules[name] = module
    loader.exec_module(module)
    return module
