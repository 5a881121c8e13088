"""The toolchain's command `rt` as a module, for scripts that check crates in ways for which it has no words."""
import importlib.machinery
import importlib.util
import os
import shutil


def toolchain():
    """The module. Its `rtlib` has what checks and builds a crate."""
    loader = importlib.machinery.SourceFileLoader('rt_command', os.path.realpath(shutil.which('rt')))
    module = importlib.util.module_from_spec(importlib.util.spec_from_loader('rt_command', loader))
    loader.exec_module(module)
    # What it is to call once, before there are threads.
    module.rtlib.guarded()
    return module
