"""The page on Python, the docstrings' examples, the annotations, the oldest Python, and the package as it is installed."""
import ast
import contextlib
import csv
import doctest
import glob
import importlib
import inspect
import io
import os
import pkgutil
import re
import shutil
import subprocess
import sys
import tempfile
import types
import typing
import unittest
from pathlib import Path
from unittest import mock

import residency
from residency import find_program

TOP = Path(__file__).resolve().parent.parent.parent
PAGE = (TOP / "docs" / "python.md").read_text(encoding="utf-8")
MODULES = [importlib.import_module(f"residency.{found.name}") for found in pkgutil.iter_modules(residency.__path__)
           if not found.ispkg]
PACKAGE = sorted((TOP / "python").rglob("*.py"))


class DataFrame:
    """What the page uses of a data frame of pandas: columns, rows as tuples, and a text of them. Rows may be dictionaries."""

    def __init__(self, rows, columns=None):
        rows = list(rows)
        self.columns = list(rows[0] if columns is None else columns)
        self.rows = [tuple(row.values() if isinstance(row, dict) else row) for row in rows]

    def __getitem__(self, columns):
        places = [self.columns.index(column) for column in columns]
        return DataFrame([[row[place] for place in places] for row in self.rows], columns)

    def itertuples(self, index=True, name="Pandas"):
        assert not index and name is None
        return iter(self.rows)

    def __str__(self):
        return "\n".join(" ".join(map(str, row)) for row in [self.columns, *self.rows])


def read_csv(path):
    """A frame of a file; a column of digits alone is of whole numbers, as pandas has it."""
    with open(path, encoding="utf-8", newline="") as file:
        heading, *rows = csv.reader(file)
    numbers = [all(row[place].isdigit() for row in rows) for place in range(len(heading))]
    return DataFrame([[int(cell) if number else cell for cell, number in zip(row, numbers)] for row in rows], heading)


def blocks():
    return re.findall(r"^```python\n(.*?)^```$", PAGE, re.MULTILINE | re.DOTALL)


class Page(unittest.TestCase):
    FILES = {"places": "programme,places\nKöln,1\nŁódź,2\n",
             "ranked": "programme,rank,applicant\nKöln,2,Zoë\nKöln,1,Ana\nŁódź,1,Zoë\n",
             "choices": "region,applicant,rank,programme\nN,Zoë,1,Köln\nN,Zoë,2,Łódź\nS,Ana,1,Köln\nS,Kim,1,Łódź\n"}

    def test_twelve_lines(self):
        lines = blocks()[0]
        self.assertLessEqual(sum(bool(line.strip()) for line in lines.split("\n")), 12)
        with tempfile.TemporaryDirectory() as folder:
            for name, text in self.FILES.items():
                (Path(folder) / f"{name}.csv").write_text(text, encoding="utf-8")
            pandas = types.ModuleType("pandas")
            pandas.read_csv = lambda path: read_csv(Path(folder) / path)
            pandas.DataFrame = DataFrame
            said = io.StringIO()
            with mock.patch.dict(sys.modules, {"pandas": pandas}), contextlib.redirect_stdout(said):
                exec(compile(lines, "docs/python.md", "exec"), {})
        self.assertEqual(said.getvalue(), "resident programme\nZoë Łódź\nAna Köln\nKim None\n")

    def test_what_is_wrong_is_told(self):
        test = doctest.DocTestParser().get_doctest(blocks()[1], {"Market": residency.Market}, "python.md", "docs/python.md", 0)
        self.assertEqual(doctest.DocTestRunner(verbose=False).run(test, out=lambda text: self.fail(text)), (0, 1))

    def test_the_offices_steps(self):
        (block,) = [text for text in blocks() if "steps.check" in text]
        test = doctest.DocTestParser().get_doctest(block, {}, "python.md", "docs/python.md", 0)
        self.assertEqual(doctest.DocTestRunner(verbose=False).run(test, out=self.fail), (0, 14))

    def test_every_name_is_there(self):
        for name in re.findall(r"`((?:Market|market|residency)\.[a-z_]+|[a-z_]+(?=\())", PAGE):
            owner, _, last = name.rpartition(".")
            of = residency.Market if owner in ("Market", "market") else residency
            self.assertTrue(hasattr(of, last) or hasattr(residency.Match, last), name)
        errors = {name for name, value in vars(residency).items() if isinstance(value, type) and issubclass(value, Exception)}
        for name in errors - {"ProgramError"}:
            self.assertIn(f"`{name}`", PAGE)


class Modules(unittest.TestCase):
    def test_examples(self):
        tried = 0
        for module in MODULES:
            result = doctest.testmod(module)
            self.assertEqual(result.failed, 0, module.__name__)
            tried += result.attempted
        self.assertGreater(tried, 30)

    def functions(self, module):
        """The public functions of a module and of its classes, by name; each class and function has a docstring."""
        for name, value in vars(module).items():
            if name.startswith("_") or getattr(value, "__module__", None) != module.__name__:
                continue
            if inspect.isfunction(value):
                self.assertTrue(value.__doc__, name)
                yield name, value
            elif inspect.isclass(value):
                self.assertTrue(value.__doc__, name)
                for inner, method in vars(value).items():
                    function = getattr(method, "__func__", method)
                    written = inspect.isfunction(function) and function.__code__.co_filename == module.__file__
                    if written and (inner == "__init__" or not inner.startswith("_")):
                        yield f"{name}.{inner}", function

    def test_all_that_is_public_is_told_and_typed(self):
        tried = 0
        for module in MODULES:
            for name, function in self.functions(module):
                hints = typing.get_type_hints(function, {**vars(residency.market), **vars(module)})
                parameters = [each for each in inspect.signature(function).parameters if each not in ("self", "cls")]
                self.assertEqual([each for each in [*parameters, "return"] if each not in hints], [], f"{module.__name__}.{name}")
                tried += 1
        self.assertGreater(tried, 80)

    def test_the_oldest_python(self):
        for path in [*PACKAGE, *sorted((TOP / "tests" / "python").glob("*.py")), TOP / "examples" / "second-opinion.py"]:
            ast.parse(path.read_text(encoding="utf-8"), str(path), feature_version=(3, 9))

    def test_by_the_oldest_python(self):
        """What has to do with other Pythons, by a Python 3.9 where one is at hand: paths, tables, answers and games."""
        found = [shutil.which("python3.9") or "",
                 *sorted(glob.glob(os.path.expanduser("~/.pyenv/versions/3.9.*/bin/python3.9")))]
        oldest = next((path for path in found if path and subprocess.run([path, "--version"], capture_output=True,
                                                                         check=False).returncode == 0), None)
        if oldest is None:
            self.skipTest("no Python 3.9 is at hand: its syntax alone is checked")
        words = [oldest, str(TOP / "tests" / "python" / "run"), "test_program", "test_market", "test_answers", "test_matching"]
        said = subprocess.run(words, capture_output=True, text=True, check=False)
        self.assertEqual((said.returncode, said.stdout.splitlines()[-1:][0].split(", ")[1]), (0, "0 failed"),
                         said.stdout + said.stderr)

    @unittest.skipUnless(hasattr(sys, "stdlib_module_names"), "Python 3.10 and later know their own modules")
    def test_nothing_else_is_needed(self):
        for path in PACKAGE:
            for node in ast.walk(ast.parse(path.read_text(encoding="utf-8"))):
                names = [each.name for each in node.names] if isinstance(node, ast.Import) else []
                names += [node.module] if isinstance(node, ast.ImportFrom) and not node.level else []
                for name in names:
                    self.assertIn(name.split(".")[0], {"residency", *sys.stdlib_module_names}, path)


class Installed(unittest.TestCase):
    TRIAL = """
import residency
print(residency.__file__)
print(ascii(residency.Market({"Köln": 1}, {"Köln": ["王"]}, {"王": ["Köln"]}).match().places))
"""

    def test_nothing_is_downloaded(self):
        if subprocess.run([sys.executable, "-m", "pip", "--version"], capture_output=True, check=False).returncode != 0:
            self.skipTest("there is no pip")
        with tempfile.TemporaryDirectory() as folder:
            # Without an index, a cache and the user's settings.
            words = [sys.executable, "-m", "pip", "install", "--isolated", "--no-index", "--no-cache-dir", "--target",
                     f"{folder}/site", str(TOP / "python")]
            said = subprocess.run(words, capture_output=True, text=True, check=False)
            self.assertEqual(said.returncode, 0, said.stdout + said.stderr)
            shown = subprocess.run([sys.executable, "-c", self.TRIAL], cwd=folder, capture_output=True, text=True, check=False,
                                   env={**os.environ, "PYTHONPATH": f"{folder}/site", "RESIDENCY_BIN": str(find_program())})
            self.assertEqual(shown.stdout, f"{folder}/site/residency/__init__.py\n{{'\\u738b': 'K\\xf6ln'}}\n", shown.stderr)
            said = subprocess.run([f"{folder}/site/bin/residency-office", "--help"], capture_output=True, text=True, check=False,
                                  env={**os.environ, "PYTHONPATH": f"{folder}/site"})
            self.assertRegex(said.stdout, "^usage: residency-office")
            self.assertEqual(files(Path(folder) / "site"), files(TOP / "python") | {"residency/VERSION", "residency/HOME", "residency/office/second-opinion.py"})


def files(folder):
    """The files of the package below a folder, without what Python keeps beside them."""
    return {path.relative_to(folder).as_posix() for path in (folder / "residency").rglob("*")
            if path.is_file() and path.suffix != ".pyc"}


if __name__ == "__main__":
    unittest.main()
