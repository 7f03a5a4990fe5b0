"""Checks that docs/PCAPFILE.md, docs/PCAPFILE_FILES.md and docs/CAPCOPY.md show what the programs write. The test runs each command there
in the folder of the captures of crates/pcapfile/data. `capcopy` is the one beside the program, or the proved one in this checkout.

A block of a page has commands, each after '$ '. Below a command it shows what the command writes to standard output and standard error.
"""
import os
import re
import shutil
import subprocess
import tempfile

PAGES = ("docs/PCAPFILE.md", "docs/PCAPFILE_FILES.md", "docs/CAPCOPY.md")
BLOCK = re.compile(r"^```console\n(.*?)^```$", re.S | re.M)
COMMAND = re.compile(r"^\$ (.*)\n((?:(?!\$ ).*\n)*)", re.M)


def try_all(tally, top, seconds):
    for page in PAGES:
        with open(f"{top}/{page}", encoding="utf-8") as it:
            blocks = BLOCK.findall(it.read())
        tally.note(page, not blocks and "it shows no command")
        for block in blocks:
            try_block(tally, top, page, block, seconds)


def try_block(tally, top, page, block, seconds):
    with tempfile.TemporaryDirectory() as room:
        os.mkdir(f"{room}/bin")
        os.symlink(tally.program, f"{room}/bin/pcapfile")
        beside = f"{os.path.dirname(tally.program)}/capcopy"
        os.symlink(beside if os.path.exists(beside) else f"{top}/crates/capcopy/out/capcopy", f"{room}/bin/capcopy")
        folder = shutil.copytree(f"{top}/crates/pcapfile/data", f"{room}/data")
        paths = {**os.environ, "PATH": f"{room}/bin:{os.environ['PATH']}"}
        for command, wanted in COMMAND.findall(block):
            ran = subprocess.run(
                command, shell=True, cwd=folder, env=paths, timeout=seconds, text=True,
                stdin=subprocess.DEVNULL, stdout=subprocess.PIPE, stderr=subprocess.STDOUT,
            )
            tally.note(f"{page}, {command}", ran.stdout != wanted and f"it writes {ran.stdout!r}, and not {wanted!r}")
