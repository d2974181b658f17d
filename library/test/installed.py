"""The package for Node as npm installs it, in library/out or in the folder that VIALSHOAL_PACKAGE names: on which systems, also where there
is no WebAssembly in it; and what programs can import of it. The last line is 'N passed, M failed'."""
from __future__ import annotations

import json
import os
import shutil
import subprocess
import sys
import tempfile
import unittest
from pathlib import Path

TOP = Path(__file__).resolve().parents[2]
sys.path.insert(0, str(TOP))

from tools.npm import limit
from tools.packages.processors import PROCESSORS

PACKAGE = Path(os.environ.get("VIALSHOAL_PACKAGE", TOP / "library" / "out" / "node")).resolve()
TOLD = json.loads((PACKAGE / "package.json").read_text()) if PACKAGE.is_dir() else {}
ADDON, WASM = "vialshoal.node", "vialshoal.wasm"
NEEDED = ("node", "npm")
# Has Node take itself for one on another system.
ELSEWHERE = """const { platform, arch, libc } = JSON.parse(process.env.ELSEWHERE);
Object.defineProperty(process, 'platform', { value: platform });
Object.defineProperty(process, 'arch', { value: arch });
const report = libc === 'musl' ? { header: {}, sharedObjects: ['/lib/ld-musl-x86_64.so.1'] } : { header: { glibcVersionRuntime: '2.36' } };
Object.defineProperty(process, 'report', { value: { getReport: () => report } });
"""
HERE = {"platform": "linux", "arch": "x64", "libc": "glibc"}
DARWIN, ARM, MUSL = (HERE | other for other in ({"platform": "darwin"}, {"arch": "arm64"}, {"libc": "musl"}))
# What is a part of the package, and how a program finds none that is none.
IMPORTS = """
import assert from 'node:assert';
import { existsSync } from 'node:fs';
import { createRequire } from 'node:module';
import { fileURLToPath } from 'node:url';

const [name, ...parts] = process.argv.slice(2);
for (const part of parts) assert.ok(existsSync(fileURLToPath(import.meta.resolve(`${name}${part}`))), part);
const { CodeMirrorBinding } = await import(`${name}/codemirror.js`), { Relay } = await import(`${name}/relay.js`);
const { WebSocketProvider } = await import(`${name}/websocket.js`), { Text } = await import(name);
for (const made of [CodeMirrorBinding, Relay, WebSocketProvider, Text]) assert.strictEqual(typeof made, 'function');
assert.strictEqual(createRequire(import.meta.url)(`${name}/package.json`).name, name);
for (const part of ['text.js', 'addon.c', 'vialshoal.node', 'none.js']) {
    await assert.rejects(import(`${name}/${part}`), { code: 'ERR_PACKAGE_PATH_NOT_EXPORTED' });
}
"""


class Installed(unittest.TestCase):
    """The package, in a folder of its own."""

    def setUp(self) -> None:
        self.room = Path(self.enterContext(tempfile.TemporaryDirectory()))
        self.package = self.room / "package"
        shutil.copytree(PACKAGE, self.package)

    def pack(self) -> None:
        """Makes npm's archive, as packages are made."""
        limit(self.package, PROCESSORS["x86_64"].node)
        words = ["npm", "pack", "--silent", "--offline", "--ignore-scripts", "--pack-destination", str(self.room)]
        subprocess.run(words, cwd=self.package, stdout=subprocess.PIPE, check=True)

    def installs(self, where: dict[str, str]) -> tuple[bool, str]:
        """Whether npm installs it where Node is this one, and what it says."""
        app, there = self.room / "app", self.room / "elsewhere.cjs"
        shutil.rmtree(app, ignore_errors=True)
        app.mkdir()
        there.write_text(ELSEWHERE)
        [archive] = self.room.glob("*.tgz")
        words = ["npm", "install", "--offline", "--no-audit", "--no-fund", "--no-save", str(archive)]
        environment = {**os.environ, "NODE_OPTIONS": f"--require={there}", "ELSEWHERE": json.dumps(where)}
        ran = subprocess.run(words, cwd=app, env=environment, capture_output=True, text=True, check=False)
        is_there = (app / "node_modules" / TOLD["name"]).is_dir()
        self.assertEqual(is_there, ran.returncode == 0, ran.stderr)
        return is_there, ran.stderr

    @unittest.skipUnless((PACKAGE / ADDON).is_file(), "the package has no addon")
    def test_with_an_addon_alone(self) -> None:
        (self.package / WASM).unlink(missing_ok=True)
        self.pack()
        self.assertEqual(self.installs(HERE), (True, ""))
        for other in DARWIN, ARM, MUSL:
            is_there, said = self.installs(other)
            self.assertIn("EBADPLATFORM", said, other)
            self.assertFalse(is_there)

    @unittest.skipUnless((PACKAGE / WASM).is_file(), "the package has no WebAssembly")
    def test_with_webassembly(self) -> None:
        self.pack()
        for where in DARWIN | ARM, MUSL:
            self.assertEqual(self.installs(where), (True, ""))

    def test_imports(self) -> None:
        self.pack()
        self.installs(HERE)
        parts = [name.removeprefix(".") for name in TOLD["exports"] if name != f"./{WASM}" or (PACKAGE / WASM).is_file()]
        (self.room / "app" / "imports.mjs").write_text(IMPORTS)
        subprocess.run(["node", "imports.mjs", TOLD["name"], *parts], cwd=self.room / "app", check=True)

    def test_each_part_is_there(self) -> None:
        for name, parts in TOLD["exports"].items():
            for condition, file in (parts if isinstance(parts, dict) else {"default": parts}).items():
                self.assertTrue((PACKAGE / file).is_file() or file == f"./{WASM}", (name, condition))
        # Who compiles for pages takes none that is for Node.
        self.assertEqual([*TOLD["exports"]["."]], ["types", "node", "default"])


def main() -> int:
    if any(shutil.which(name) is None for name in NEEDED):
        print("npm: there is none, so nothing is tested")
        print("0 passed, 0 failed")
        return 0
    ran = unittest.main(argv=[sys.argv[0]], exit=False).result
    failed = len(ran.failures) + len(ran.errors)
    print(f"{ran.testsRun - failed} passed, {failed} failed")
    return 1 if failed else 0


if __name__ == "__main__":
    sys.exit(main())
