"""The byte code of what a run of tests starts. bin/note writes none, so each start of it would compile all of share/ anew; but it reads
what lies in a folder of the run."""
import os
import pathlib
import subprocess
import sys

TOP = pathlib.Path(__file__).resolve().parents[2]
# All that bin/note may import.
IMPORTS = """
import importlib, pkgutil, share
for one in pkgutil.walk_packages(share.__path__, "share."):
    if not one.name.startswith(("share.tests", "share.__main__")):
        importlib.import_module(one.name)
"""


def use_byte_code_of(folder: pathlib.Path) -> None:
    """Has this process, and those that it starts, have their byte code in a folder, where that of bin/note lies from now on."""
    os.environ["PYTHONPYCACHEPREFIX"] = sys.pycache_prefix = str(folder)
    os.environ.pop("PYTHONDONTWRITEBYTECODE", None)
    sys.dont_write_bytecode = False
    subprocess.run([sys.executable, "-c", IMPORTS], cwd=TOP, check=True)
