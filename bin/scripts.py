"""Scripts as modules, though their names have no ending. For bench/ and tests/."""
import os
from importlib.machinery import SourceFileLoader
from importlib.util import module_from_spec, spec_from_loader


def beside(file, name):
    """The script of this name in the folder of a file."""
    path = os.path.join(os.path.dirname(os.path.realpath(file)), name)
    spec = spec_from_loader(name, SourceFileLoader(name, path))
    module = module_from_spec(spec)
    spec.loader.exec_module(module)
    return module
