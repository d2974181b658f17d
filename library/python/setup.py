"""The wheel has the C library in it, and no code for one Python alone. Its platform is found in the library."""
import os
import re
import subprocess

from setuptools import Distribution, setup
from wheel.bdist_wheel import bdist_wheel

LIBRARY = "vialshoal/libvialshoal.so"
MACHINES = {"Advanced Micro Devices X86-64": "x86_64", "AArch64": "aarch64"}
# The glibc of the first systems that manylinux has a name for.
FIRST = {"x86_64": (2, 5), "aarch64": (2, 17)}
# What each of those systems has beside it.
EVERYWHERE = {"libc.so.6", "libm.so.6", "libgcc_s.so.1", "ld-linux-x86-64.so.2", "ld-linux-aarch64.so.1"}


def platform(library: str) -> str:
    """The tag of the oldest systems on which a library runs: those whose glibc has each version that its symbols name."""
    words = ["readelf", "--wide", "--file-header", "--dynamic", "--version-info", library]
    told = subprocess.run(words, env={**os.environ, "LC_ALL": "C"}, stdout=subprocess.PIPE, text=True, check=True).stdout
    machine = MACHINES[re.search(r"Machine: +(.*)", told)[1].strip()]
    if not set(re.findall(r"\(NEEDED\).*\[(.*)\]", told)) <= EVERYWHERE:
        return f"linux_{machine}"
    names = re.findall(r"Name: (\S+)", told)
    # (what has no number, as GLIBC_ABI_DT_RELR, came with a system that its name doesn't say)
    if not all(re.fullmatch(r"(GLIBC|GCC)_[\d.]+", name) for name in names):
        return f"linux_{machine}"
    versions = re.findall(r"Name: GLIBC_(\d+)\.(\d+)", told)
    return "manylinux_{}_{}_{}".format(*max(FIRST[machine], *((int(a), int(b)) for a, b in versions)), machine)


class WithLibrary(Distribution):
    """Is installed where such packages are that run on some systems alone."""

    def has_ext_modules(self) -> bool:
        return True


class Wheel(bdist_wheel):
    def get_tag(self) -> tuple[str, str, str]:
        return "py3", "none", platform(LIBRARY)


setup(cmdclass={"bdist_wheel": Wheel}, distclass=WithLibrary)
