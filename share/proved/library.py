"""The library that has the proved note: where its Python package finds it, else as this checkout has made it."""
import contextlib
import importlib
import os
import sys
from collections.abc import Iterator
from types import ModuleType

from share.program.process import TOP
from share.text.errors import Trouble

LIBRARY_VARIABLE, LIBRARY_PACKAGE = "VIALSHOAL_LIBRARY", "vialshoal"
PACKAGE_HERE, LIBRARY_HERE = TOP / "library" / "python", TOP / "library" / "out" / "libvialshoal.so"


def library() -> ModuleType:
    """The package, with its library; Trouble where they aren't here."""
    try:
        found = _installed() or _package_here()
    except (ImportError, AttributeError, OSError) as why:
        # A library of another version may lack calls.
        raise Trouble(f"The library that has the proved note isn't here ({why}). Install its Python package, or have a checkout's "
                      f"bin/library --unproved make it; {LIBRARY_VARIABLE} may name it.") from why
    if not hasattr(found, "Note"):
        raise Trouble(f"The library's package in {found.__file__} is too old, and has no note.")
    return found


def _installed() -> ModuleType | None:
    """The package where Python finds it."""
    try:
        return importlib.import_module("vialshoal")
    except ModuleNotFoundError as why:
        if why.name != LIBRARY_PACKAGE:
            raise
        return None


def _package_here() -> ModuleType:
    with _looking_here():
        return importlib.import_module("vialshoal")


@contextlib.contextmanager
def _looking_here() -> Iterator[None]:
    """Meanwhile Python finds the package of this checkout, and that its library, where no other one is named."""
    is_named = bool(os.environ.get(LIBRARY_VARIABLE))
    if not is_named and LIBRARY_HERE.is_file():
        os.environ[LIBRARY_VARIABLE] = str(LIBRARY_HERE)
    sys.path.insert(0, str(PACKAGE_HERE))
    try:
        yield
    finally:
        sys.path.remove(str(PACKAGE_HERE))
        if not is_named:
            os.environ.pop(LIBRARY_VARIABLE, None)
