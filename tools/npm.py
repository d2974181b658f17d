"""Makes a folder that is the package for Node and for pages: python3 -B -m tools.npm FOLDER [--wasm]. With --wasm Rust compiles the
library from rust/ as WebAssembly; where it can't, what is lacking is told, nothing is changed, and the status is 3. WASM_TARGET_DIR may
name another folder than rust/target for what cargo compiles."""
from __future__ import annotations

import argparse
import json
import os
import re
import shutil
import subprocess
import sys
from collections.abc import Iterator, Sequence
from pathlib import Path
from typing import NamedTuple

from tools import TOP

NODE = TOP / "library" / "node"
RUST = TOP / "rust"
TARGET = "wasm32-unknown-unknown"
LACKING = 3
# What a package has of the sources.
FILES = ("*.js", "*.mjs", "*.d.ts", "package.json")


class Lacking(Exception):
    """What is needed isn't installed."""


class Toolchain(NamedTuple):
    """Rust's compiler, the cargo beside it, and where its libraries are."""

    rustc: Path
    cargo: Path
    root: Path


def folders() -> Iterator[Path]:
    """Where commands are looked for."""
    yield from (Path(folder) for folder in os.environ.get("PATH", "").split(os.pathsep) if folder)


def installed() -> Iterator[Toolchain]:
    """Those that are installed, the first on the path first."""
    roots = set()
    for folder in folders():
        rustc, cargo = folder.absolute() / "rustc", folder.absolute() / "cargo"
        if shutil.which(rustc) is None or shutil.which(cargo) is None:
            continue
        ran = subprocess.run([rustc, "--print", "sysroot"], stdout=subprocess.PIPE, text=True, check=False, cwd=RUST)
        root = Path(ran.stdout.strip())
        if ran.returncode == 0 and root not in roots:
            roots.add(root)
            yield Toolchain(rustc, cargo, root)


def words_for_std(root: Path) -> tuple[list[str], dict[str, str]]:
    """What cargo is told about Rust's standard library for the target, and in which environment: it lies there, or is compiled from
    its sources with those that it uses, as Debian has them."""
    if any((root / "lib/rustlib" / TARGET / "lib").glob("libstd-*.rlib")):
        return [], {}
    library = root / "lib/rustlib/src/rust/library"
    if not (library / "vendor").is_dir():
        raise Lacking(f"Rust's standard library for {TARGET} isn't there, nor its sources")
    vendored = ["--config", 'source.crates-io.replace-with="std"', "--config", f'source.std.directory="{library}/vendor"']
    # (without a feature that is named it would be compiled with those that print where a panic was)
    return ["-Zbuild-std=std,panic_abort", "-Zbuild-std-features=compiler-builtins-mem", *vendored], {"RUSTC_BOOTSTRAP": "1"}


def linkers() -> Iterator[str]:
    """LLVM's linkers for WebAssembly that are installed: the one without a version, and then the newest first."""
    if shutil.which("wasm-ld"):
        yield "wasm-ld"
    names = {path.name for folder in folders() for path in folder.glob("wasm-ld-*")}
    found = [name for name in names if re.fullmatch(r"wasm-ld-\d+", name)]
    yield from sorted(found, key=lambda name: -int(name.rpartition("-")[2]))


def linker(root: Path) -> dict[str, str]:
    """The environment that names a linker where Rust brings none."""
    if any((root / "lib/rustlib").glob("*/bin/rust-lld")):
        return {}
    for name in linkers():
        return {"CARGO_TARGET_WASM32_UNKNOWN_UNKNOWN_LINKER": name}
    raise Lacking("there is no wasm-ld")


def flags(root: Path) -> dict[str, str]:
    """The environment by which the same is made wherever the sources lie."""
    places = {RUST: "rust", root / "lib/rustlib/src/rust": "std"}
    return {"CARGO_ENCODED_RUSTFLAGS": "\x1f".join(f"--remap-path-prefix={at}={name}" for at, name in places.items())}


def words_for(rust: Toolchain) -> tuple[list[str], dict[str, str]]:
    """What its cargo is told, and in which environment."""
    words, environment = words_for_std(rust.root)
    return words, {"RUSTC": str(rust.rustc), **flags(rust.root), **linker(rust.root), **environment}


def chosen() -> tuple[Toolchain, list[str], dict[str, str]]:
    """The first Rust that can compile for the target, and what its cargo is told."""
    lacking = Lacking("there is no Rust")
    for number, rust in enumerate(installed()):
        try:
            return rust, *words_for(rust)
        except Lacking as why:
            lacking = lacking if number else why
    raise lacking


def compiled() -> Path:
    """The library as WebAssembly."""
    rust, words, environment = chosen()
    kept = {name: value for name, value in os.environ.items() if not name.endswith("RUSTFLAGS")}
    to = Path(os.environ.get("WASM_TARGET_DIR", RUST / "target"))
    subprocess.run(
        [rust.cargo, "build", "--offline", "--locked", "--quiet", "--profile", "wasm", "--target", TARGET,
         "--target-dir", str(to), "--package", "vialshoal_wasm", *words],
        cwd=RUST, env={**kept, **environment}, check=True,
    )  # fmt: skip
    return to / TARGET / "wasm" / "vialshoal_wasm.wasm"


def limit(folder: Path, cpu: str) -> None:
    """Has npm install a package without WebAssembly on such systems alone as its addon is for."""
    path = folder / "package.json"
    package = json.loads(path.read_text())
    if not (folder / "vialshoal.wasm").exists():
        package |= {"os": ["linux"], "cpu": [cpu], "libc": ["glibc"]}
    path.write_text(json.dumps(package, indent=2) + "\n")


def main(words: Sequence[str]) -> int:
    parser = argparse.ArgumentParser(prog="tools.npm", description=__doc__)
    parser.add_argument("folder", type=Path)
    parser.add_argument("--wasm", action="store_true")
    given = parser.parse_args(words)
    try:
        made = compiled() if given.wasm else None
    except Lacking as why:
        print(f"WebAssembly: {why} (docs/LIBRARY.md)", file=sys.stderr)
        return LACKING
    shutil.rmtree(given.folder, ignore_errors=True)
    given.folder.mkdir(parents=True)
    for file in (file for pattern in FILES for file in sorted(NODE.glob(pattern))):
        shutil.copyfile(file, given.folder / file.name)
    if made is not None:
        shutil.copyfile(made, given.folder / "vialshoal.wasm")
    return 0


if __name__ == "__main__":
    sys.exit(main(sys.argv[1:]))
