"""For the tests: the tools as modules, the second program, and its made days."""

import importlib.machinery
import importlib.util
import pathlib
import shutil
import subprocess
import sys
import unittest

ROOT = pathlib.Path(__file__).resolve().parent.parent
SECOND = ROOT / "second/target/release/second"
BENCH = f"{SECOND} run"


def tool(path):
    """The program at this path of the repository as a module."""
    loader = importlib.machinery.SourceFileLoader(path.replace("/", "_").replace("-", "_"), str(ROOT / path))
    spec = importlib.util.spec_from_loader(loader.name, loader)
    module = importlib.util.module_from_spec(spec)
    loader.exec_module(module)
    return module


def second(*words, day=b""):
    """What the second program writes."""
    return subprocess.run([SECOND, *map(str, words)], input=day, stdout=subprocess.PIPE, check=True).stdout


def kinds():
    return second("kinds").decode().split()


def needs(program, what):
    """Skips a test where a program is not installed, and says so."""
    if shutil.which(program):
        return lambda test: test
    print(f"tools' tests: {program} is not installed, so {what}", file=sys.stderr)
    return unittest.skip(f"{program} is not installed")
