"""The lines in Python of docs/LIBRARY.md, pasted one after the other into a fresh folder.

  VIALSHOAL_LIBRARY=library/out/libvialshoal.so python3 -m unittest discover library/python/tests
"""
from __future__ import annotations

import re
import subprocess
import sys
import tempfile
import textwrap
import unittest

from test_text import TOP

SAID = """\
b'Oberon'
Delta(is_own=False, steps=(Retain(length=6, is_dressed=False), Insert(data=b'!')))
Oberon! True
"""


class Pasted(unittest.TestCase):
    def test_they_work_in_their_order(self) -> None:
        page = (TOP / "docs" / "LIBRARY.md").read_text()
        blocks = re.findall(r"\n\n((?:    .*\n|\n)+)", page)
        lines = "".join(textwrap.dedent(block) for block in blocks if block.startswith("    from vialshoal import "))
        with tempfile.TemporaryDirectory() as folder:
            ran = subprocess.run([sys.executable, "-B"], input=lines, stdout=subprocess.PIPE, text=True, cwd=folder)
        self.assertEqual((ran.stdout, ran.returncode), (SAID, 0))


if __name__ == "__main__":
    unittest.main()
