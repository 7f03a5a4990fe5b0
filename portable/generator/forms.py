"""Makes the files of C, each from the module of one crate."""
import os
import sys

from . import heads, modules, recording
from .places import PORTABLE, shown
from .stopping import Stopped

sys.path.insert(0, PORTABLE)
from translator.failure import Unknown  # noqa: E402
from translator.file import File  # noqa: E402
from translator.module import module_of  # noqa: E402

FILES = {"pcapfile_c": "pcapfile.c", "capcopy": "capcopy_program.c", "pcapfile": "pcapfile_program.c"}


def text_of(name):
    """Returns the C of a crate."""
    module, verdict = recording.recorded(name)
    text = modules.prepared(module)
    try:
        made = File(module_of(modules.optimized(name, text))).text(heads.head(name, verdict, text))
    except Unknown as why:
        raise Stopped(f"the translator does not know, in {name}: {why}") from why
    return made


def write(name, folder):
    """Writes a crate's file of C, and prints its length."""
    made = text_of(name).encode()
    path = os.path.join(folder, FILES[name])
    with open(f"{path}.new", "wb") as it:
        it.write(made)
    os.replace(f"{path}.new", path)
    print(f"{shown(path)}: {len(made)} bytes", flush=True)
    return path
