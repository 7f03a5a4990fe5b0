"""Tests of the examples in docstrings. Each example is run, and each public name has one."""

import asyncio
import doctest
import inspect
import io
import unittest
import warnings
from pathlib import Path

import pcapfile
from test_pages import CAPTURE, has, has_program, write_captures
from test_programs import InFolder

# The names whose examples run the program. The test leaves them out if the program is missing.
BY_PROGRAM = ("info", "merge", "cut", "convert", "repair", "ProgramError")

# The packages that examples of other methods need.
NEEDED = {"to_pandas": ["pandas"], "to_polars": ["polars"], "write_rows": ["numpy"]}


def public():
    """Iterates over the public classes and functions, with their names."""
    for name in pcapfile.__all__:
        found = getattr(pcapfile, name)
        if inspect.isclass(found) or inspect.isfunction(found):
            yield name, found


def attributes(kind):
    """Iterates over the public methods, properties and attributes that a class has in this package, with their names. The fields
    of tuples have their documentation in that of the class."""
    for base in inspect.getmro(kind):
        for name, found in vars(base).items() if base.__module__.startswith("pcapfile") else ():
            is_one = inspect.isfunction(found) or isinstance(found, property) or inspect.isgetsetdescriptor(found)
            if is_one and not name.startswith("_"):
                yield name, getattr(kind, name)


def methods():
    seen = set()
    for of, found in public():
        for name, method in attributes(found) if inspect.isclass(found) else ():
            if id(method) not in seen:
                seen.add(id(method))
                yield f"{of}.{name}", method


def beside():
    """Iterates over the functions of modules that need other packages."""
    if has("dask", "pandas"):
        import pcapfile.dask

        yield "dask.read", pcapfile.dask.read


class Docstrings(InFolder):
    def setUp(self):
        super().setUp()
        write_captures()
        Path("broken.pcap").write_bytes(CAPTURE[:-1])

    def test_each_public_name_has_an_example(self):
        for name, found in public():
            with self.subTest(name=name):
                self.assertIn(">>> ", found.__doc__)
        for name, method in methods():
            with self.subTest(name=name):
                self.assertIn(">>> ", inspect.getdoc(method))

    def test_examples(self):
        """The examples of attributes have a packet: the first of capture.pcap in C for classic captures, and of options.pcapng
        elsewhere."""
        packets = {name: next(iter(pcapfile.open(name))) for name in ("capture.pcap", "options.pcapng")}
        names = {"pcapfile": pcapfile, "io": io, "asyncio": asyncio, "warnings": warnings}
        parser, runner, count = doctest.DocTestParser(), doctest.DocTestRunner(verbose=False), 0
        for name, found in [*public(), *methods(), *beside()]:
            if name in BY_PROGRAM and not has_program() or not has(*NEEDED.get(name.rpartition(".")[2], ())):
                continue
            said = []
            is_classic = inspect.isgetsetdescriptor(found) and name.startswith("Packet.")
            packet = packets["capture.pcap" if is_classic else "options.pcapng"]
            test = parser.get_doctest(inspect.getdoc(found), {**names, "packet": packet}, name, None, None)
            with warnings.catch_warnings():
                count += runner.run(test, out=said.append).attempted
            with self.subTest(name=name):
                self.assertEqual("".join(said), "")
        self.assertGreater(count, 90)


if __name__ == "__main__":
    unittest.main()
