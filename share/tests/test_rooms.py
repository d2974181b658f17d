"""The folders of share/: each imports only itself and those before it, also inside functions; a name means one thing; and classes and
functions stay small."""
import ast
import pathlib
import unittest
from collections import defaultdict
from collections.abc import Iterable, Iterator
from typing import NamedTuple

from share.cli import installing

TOP = pathlib.Path(__file__).resolve().parents[1]
# From the lowest one up, as share/__init__.py has them.
ROOMS = ("text", "format", "admission", "review", "log", "relay", "program", "store", "proved", "sync", "engine", "editors", "cli")
FUNCTIONS = ast.FunctionDef, ast.AsyncFunctionDef
DEFINITIONS = *FUNCTIONS, ast.ClassDef
MOST_LINES_OF_A_CLASS, MOST_LINES_OF_A_FUNCTION, MOST_LINES_OF_A_MODULE = 250, 40, 800
# What imports a module, or runs one, whose name is a value.
IMPORTING = {"import_module", "__import__", "find_spec", "run_module", "run_path", "exec_module", "exec", "eval"}
TEXTS = {"run_path", "exec", "eval"}


class Module(NamedTuple):
    """A module: its path in share/, and its tree."""

    path: pathlib.Path
    tree: ast.Module


def modules() -> Iterator[Module]:
    """Each module of share/, but for its tests."""
    for path in sorted(TOP.rglob("*.py")):
        if path.relative_to(TOP).parts[0] != "tests":
            yield Module(path.relative_to(TOP), ast.parse(path.read_bytes()))


def imported(tree: ast.Module) -> Iterator[str]:
    """What a module imports of share/, wherever in it; a relative import counts as one of the folder above all."""
    named = set[ast.expr]()
    for node in ast.walk(tree):
        match node:
            case ast.ImportFrom():
                yield "share.?" if node.level or IMPORTING & {name.name for name in node.names} else node.module or ""
            case ast.Import():
                yield from (name.name for name in node.names)
            case ast.Call(ast.Name(_) | ast.Attribute(_, _) as called, [ast.Constant(str(name))]) if name_of(called) in IMPORTING - TEXTS:
                named.add(called)
                yield name
            case ast.Name() | ast.Attribute() if name_of(node) in IMPORTING and node not in named:
                yield f"share.? by {ast.unparse(node)}"


def name_of(node: ast.Name | ast.Attribute) -> str:
    """The last name of something."""
    return node.id if isinstance(node, ast.Name) else node.attr


def upward(one: Module) -> list[str]:
    """What a module of a folder imports that stands above it, or that isn't seen to stand below."""
    may = {f"share.{room}" for room in ROOMS[:ROOMS.index(one.path.parts[0]) + 1]}
    return [name for name in imported(one.tree)
            if (name == "share" or name.startswith("share.")) and ".".join(name.split(".")[:2]) not in may]


def statements(of: ast.AST) -> Iterator[ast.stmt]:
    """The statements of a module's top level, also those that stand under conditions."""
    for node in ast.iter_child_nodes(of):
        if isinstance(node, ast.stmt):
            yield node
        if not isinstance(node, (*DEFINITIONS, ast.expr)):
            yield from statements(node)


def defined(tree: ast.Module) -> set[str]:
    """The names that a module defines at its top level."""
    found = set[str]()
    for node in statements(tree):
        if isinstance(node, DEFINITIONS):
            found.add(node.name)
        elif isinstance(node, ast.Assign | ast.AnnAssign):
            targets = node.targets if isinstance(node, ast.Assign) else [node.target]
            found |= {one.id for target in targets for one in ast.walk(target) if isinstance(one, ast.Name)}
    return found


def defined_twice(ones: Iterable[Module]) -> dict[str, set[str]]:
    """The names that two modules define."""
    found = defaultdict(set)
    for one in ones:
        for name in defined(one.tree):
            found[name].add(str(one.path))
    return {name: paths for name, paths in found.items() if len(paths) > 1}


def large(one: Module) -> list[str]:
    """What of a module is too long: classes and functions, wherever they stand, and the module itself."""
    sizes = [(node.name, node.lineno, node.end_lineno, MOST_LINES_OF_A_CLASS if isinstance(node, ast.ClassDef)
              else MOST_LINES_OF_A_FUNCTION) for node in ast.walk(one.tree) if isinstance(node, DEFINITIONS)]
    sizes += [("the module", 1, one.tree.body[-1].end_lineno, MOST_LINES_OF_A_MODULE)] if one.tree.body else []
    return [name for name, begin, end, lines in sizes if (end or begin) - begin + 1 > lines]


class Rooms(unittest.TestCase):
    """What may know what."""

    def test_no_folder_imports_one_above_it(self) -> None:
        for one in modules():
            if len(one.path.parts) > 1:
                self.assertEqual(upward(one), [], one.path)

    def test_all_folders_are_installed(self) -> None:
        self.assertEqual(installing.ROOMS, ROOMS)

    def test_share_itself_has_nothing_but_its_folders(self) -> None:
        self.assertEqual({path.name for path in TOP.glob("*.py")}, {"__init__.py", "__main__.py"})
        self.assertEqual({path.parent.name for path in TOP.glob("*/__init__.py")}, {*ROOMS, "tests"})
        self.assertEqual({one.path.parts[0] for one in modules() if len(one.path.parts) > 1}, {*ROOMS})

    def test_a_name_is_defined_in_one_module(self) -> None:
        self.assertEqual(defined_twice(modules()), {})

    def test_nothing_waits_by_select(self) -> None:
        # It takes no descriptor above 1,023.
        for one in modules():
            used = {ast.unparse(node) for node in ast.walk(one.tree) if isinstance(node, ast.Attribute | ast.ImportFrom)}
            self.assertFalse(used & {"select.select", "from select import select"}, one.path)

    def test_classes_and_functions_are_small(self) -> None:
        for one in modules():
            self.assertEqual(large(one), [], one.path)


def module(source: str, room: str = "sync") -> Module:
    """A module of a folder, as it might be written."""
    return Module(pathlib.Path(room, "one.py"), ast.parse(source))


class Seen(unittest.TestCase):
    """What breaks these rules is seen, wherever it stands."""

    def test_imports(self) -> None:
        for wrong in ("from share.engine.server import Server", "import share.cli.main as main", "from share import engine",
                      "import share", "def f():\n    from share.engine import editor",
                      "class A:\n    async def f(self):\n        import share.editors.note",
                      "from typing import TYPE_CHECKING\nif TYPE_CHECKING:\n    from share.engine.editor import Editor",
                      "try:\n    import share.editors.web.server\nexcept ImportError:\n    pass", "from ..engine import editor",
                      "from . import state", "import importlib\nimportlib.import_module('share.engine')",
                      "from importlib import import_module as get\nget('share' + '.engine')",
                      "def f():\n    return __import__('share.engine')", "import importlib\nf = importlib.import_module\nf(name)",
                      "exec('import share.engine')", "lambda: __import__('share.cli')", "from share.tests.naive import taking"):
            self.assertTrue(upward(module(wrong)), wrong)
        for right in ("from share.store.notes import open_note", "import share.sync.state", "import json", "from sharedlib import engine",
                      "importlib.import_module('regex')", "importlib.import_module('share.text')"):
            self.assertEqual(upward(module(right)), [], right)

    def test_names(self) -> None:
        one = module("def f(): pass\nclass A: pass\nx, (y, *z) = 1, (2, 3)\nw: int = 4\nasync def g(): pass")
        for other in ("f = 1", "if True:\n    class A: pass", "try:\n    y = 1\nexcept ValueError:\n    pass", "for _ in ():\n    z = 2",
                      "with a as b:\n    w = 5", "if a:\n    pass\nelse:\n    def g(): pass", "async def f(): pass"):
            self.assertEqual(len(defined_twice([one, module(other, "store")])), 1, other)
        for other in "def h():\n    f = 1", "class B:\n    x = 1\n    def f(self): pass", "h(f)":
            self.assertEqual(defined_twice([one, module(other, "store")]), {}, other)

    def test_sizes(self) -> None:
        def lines(many: int, indent: int = 8) -> str:
            return f"\n{' ' * indent}x = 1" * many
        for begin, most, found in (("class A:", 249, "A"), ("def f():", 39, "f"), ("async def f():", 39, "f"),
                                   ("class A:\n  def f(self):", 39, "f"), ("class A:\n  async def f(self):", 39, "f"),
                                   ("class A:\n  class B:\n    @a\n    @b\n    def f(self):", 39, "f"),
                                   ("if a:\n  class A:", 249, "A"), ("x = 1\nif a:", 798, "the module")):
            self.assertEqual(large(module(begin + lines(most))), [], begin)
            self.assertEqual(large(module(begin + lines(most + 1))), [found], begin)
        inner = "def f():\n    def g():" + lines(38)
        self.assertEqual((large(module(inner)), large(module(inner + lines(1, 4)))), ([], ["f"]))


if __name__ == "__main__":
    unittest.main()
