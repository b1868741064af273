"""Scripts of this repository as modules, so that what one of them knows another can use."""
import importlib.machinery
import importlib.util
import os
import pathlib
import sys

TOP = pathlib.Path(__file__).resolve().parent.parent


def program():
    """The program that is tried: that of CSICODEC_PROGRAM, or the one that was built here last."""
    path = os.path.abspath(os.environ.get("CSICODEC_PROGRAM") or TOP / "crates/csicodec_tool/out/csicodec_tool")
    if not os.access(path, os.X_OK):
        sys.exit(f"{os.path.basename(sys.argv[0])}: refused: there is no program {path}; CSICODEC_PROGRAM names another")
    return path


def script(path):
    """The script of this path in the repository, run as a module of its name."""
    loader = importlib.machinery.SourceFileLoader(pathlib.PurePath(path).name, str(TOP / path))
    made = importlib.util.module_from_spec(importlib.util.spec_from_loader(loader.name, loader))
    loader.exec_module(made)
    return made
