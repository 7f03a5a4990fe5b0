"""Compiles the extension, and the program `pcapfile` that the package runs.

The extension is native/native.c with the library for C, for the stable interface of Python 3.9. The sources are those of the
repository, or their copies in an sdist. These environment variables change what a wheel contains:

- PCAPFILE_ARCHIVE is the path of a proved archive, libpcapfile.a. The extension is linked with it instead of the library's
  source.
- PCAPFILE_PROGRAM is the path of a program that the wheel contains instead of a compiled one. If it is empty, the wheel has no
  program.
- PCAPFILE_LICENCES is the folder with the licences of everything in the wheel."""

import os
import re
import shutil
from pathlib import Path

from setuptools import Extension, setup
from setuptools.command.build_ext import build_ext
from setuptools.command.sdist import sdist

try:
    from setuptools.command.bdist_wheel import bdist_wheel
except ImportError:  # before setuptools 70, where only wheels need it
    try:
        from wheel.bdist_wheel import bdist_wheel
    except ImportError:
        bdist_wheel = object

HERE = Path(__file__).resolve().parent
TOP = HERE.parent
LIMITED = "0x03090000"

# Files of the repository, and their paths in an sdist.
PORTABLE = ("pcapfile.c", "pcapfile_program.c", "os.c")
COPIED = {
    **{TOP / "portable" / it: HERE / "native" / it for it in PORTABLE},
    TOP / "include" / "pcapfile.h": HERE / "native" / "pcapfile.h",
    TOP / "VERSION": HERE / "VERSION",
}
# The licences of everything in the library and the program.
LICENCES = {TOP / it: HERE / it for it in ("LICENSE", "NOTICE")}
LICENCES.update((it, HERE / it.name) for it in (TOP / "portable" / "licences").glob("LICENSE.*"))
LICENCES.update((it, it) for it in HERE.glob("LICENSE.*"))
COPIED.update(LICENCES)


def found(source):
    """Returns a file of the repository, or its copy in an sdist."""
    return COPIED[source] if COPIED[source].exists() else source


class WithSources(sdist):
    """Makes an sdist that contains all sources of the extension."""

    def make_release_tree(self, base_dir, files):
        super().make_release_tree(base_dir, files)
        for source, copy in ((it, copy) for it, copy in COPIED.items() if found(it).exists()):
            shutil.copy(found(source), os.path.join(base_dir, copy.relative_to(HERE)))


class WithProgram(build_ext):
    """Builds the extension, and beside it the program in the folder `bin`."""

    def run(self):
        super().run()
        folder = Path(self.get_ext_fullpath("pcapfile._native")).parent / "bin"
        given = os.environ.get("PCAPFILE_PROGRAM")
        if given is None:
            self.compile_program(folder)
        elif given:
            folder.mkdir(parents=True, exist_ok=True)
            shutil.copy(given, folder / "pcapfile")

    def compile_program(self, folder):
        """Compiles the program at -O1, which takes half a minute. -O2 takes a minute, and makes the program at most a tenth
        faster."""
        sources = [str(found(TOP / "portable" / it)) for it in PORTABLE[1:]]
        objects = self.compiler.compile(sources, output_dir=self.build_temp, extra_postargs=["-O1", "-g0", "-w", "-fno-strict-aliasing"])
        self.compiler.link_executable(objects, "pcapfile", output_dir=str(folder), extra_postargs=["-s"])


class Wheel(bdist_wheel):
    """Makes a wheel whose tag names the C library that the extension needs. The wheel also contains the licences."""

    def get_tag(self):
        python, interface, system = super().get_tag()
        built = Path(self.get_finalized_command("build_ext").build_lib, "pcapfile")
        compiled = [*built.glob("_native.*"), *built.glob("bin/*")]
        needed = [int(it) for place in compiled for it in re.findall(rb"GLIBC_2\.(\d+)", place.read_bytes())]
        if needed and system.startswith("linux_"):
            system = f"manylinux_2_{max(17, *needed)}_{system.partition('_')[2]}"
        return python, interface, system

    def write_wheelfile(self, wheelfile_base, *args, **words):
        super().write_wheelfile(wheelfile_base, *args, **words)
        folder = os.environ.get("PCAPFILE_LICENCES")
        licences = sorted(Path(folder).iterdir()) if folder else [found(it) for it in LICENCES if found(it).exists()]
        os.makedirs(os.path.join(wheelfile_base, "licenses"), exist_ok=True)
        for licence in licences:
            shutil.copy(licence, os.path.join(wheelfile_base, "licenses"))


def extension():
    archive = os.environ.get("PCAPFILE_ARCHIVE")
    includes = [found(TOP / "include" / "pcapfile.h").parent, found(TOP / "portable" / "pcapfile.c").parent, HERE / "native"]
    headers = [str(it.relative_to(HERE)) for it in (HERE / "native").glob("*.h")]
    return Extension(
        "pcapfile._native",
        ["native/native.c", *([] if archive else ["native/library.c"])],
        include_dirs=[str(it) for it in includes],
        depends=headers,
        define_macros=[("Py_LIMITED_API", LIMITED)],
        extra_objects=[archive] if archive else [],
        extra_compile_args=["-O2", "-g0", "-fno-strict-aliasing"],
        py_limited_api=True,
    )


os.chdir(HERE)
setup(
    version=found(TOP / "VERSION").read_text().strip(),
    cmdclass={"sdist": WithSources, "build_ext": WithProgram, **({} if bdist_wheel is object else {"bdist_wheel": Wheel})},
    ext_modules=[extension()],
    options={"bdist_wheel": {"py_limited_api": "cp39"}},
)
