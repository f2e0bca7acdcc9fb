"""What the tests of scripts share."""
import subprocess
import sys

from registry.common import TOP
from toolchain import loaded

SCRIPTS = TOP / "scripts"


def module(name):
    """Returns a script as a module."""
    return loaded(f"{name}_script", SCRIPTS / name)


def ran(*words, folder=TOP):
    """Runs a command, and returns its status and its output."""
    how = {"cwd": folder, "stdin": subprocess.DEVNULL, "stdout": subprocess.PIPE}
    how |= {"stderr": subprocess.STDOUT, "text": True, "check": False}
    found = subprocess.run([*map(str, words)], **how)
    return found.returncode, found.stdout.strip()


def python(script, *words, folder=TOP):
    """Runs a Python script of a repository there."""
    return ran(sys.executable, folder / "scripts" / script, *words, folder=folder)
