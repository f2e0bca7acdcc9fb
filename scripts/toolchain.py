"""The kit's module `rt`, for scripts that use the functions of its commands. As a program, in the
folder of a crate, it is `rt try` without the check that `rt` runs in parallel: that check gives
hints about reserved names, and takes as long again."""
import importlib.machinery
import importlib.util
import os
import shutil
import sys


def loaded(name, path):
    """Returns a script as a module of this name."""
    loader = importlib.machinery.SourceFileLoader(name, str(path))
    made = importlib.util.module_from_spec(importlib.util.spec_from_loader(name, loader))
    sys.modules[name] = made
    loader.exec_module(made)
    return made


def toolchain():
    """Returns the module `rt` of the kit whose command is on the path."""
    return loaded("rt_module", os.path.realpath(shutil.which("rt") or sys.exit("there is no command rt")))


if __name__ == "__main__":
    rt = toolchain()
    rt.rtlib.RATTLE = shutil.which("true")
    sys.exit(rt.main(["try", *sys.argv[1:]]))
