"""Each script that tests/check runs over the built programs and the library, as a test."""
import os
import re
import subprocess

import pytest

TOP = os.path.dirname(os.path.dirname(os.path.abspath(__file__)))
with open(f"{TOP}/tests/check", encoding="utf-8") as it:
    # tests/files/test_commands.py has the parts of tests/files/run.
    SCRIPTS = [words for words in re.findall(r"^ *part ((?:tests|portable)/.*)$", it.read(), re.M) if not words.startswith("tests/files/run")]


@pytest.mark.parametrize("words", SCRIPTS)
def test_script(words, built, tmp_path):
    environment = {**os.environ, "TMPDIR": str(tmp_path), "out": built}
    ran = subprocess.run(["bash", "-c", f"words=(); {words}"], cwd=TOP, env=environment, stdin=subprocess.DEVNULL, capture_output=True, text=True)
    assert ran.returncode == 0, ran.stdout[-3000:] + ran.stderr[-3000:]
