"""What the tests use under pytest: the programs and the library that `make` built, in out/ or in the folder PCAPFILE_OUT."""
import os

import pytest

TOP = os.path.dirname(os.path.dirname(os.path.abspath(__file__)))


@pytest.fixture(scope="session")
def built():
    folder = os.path.abspath(os.environ.get("PCAPFILE_OUT", f"{TOP}/out"))
    if not os.path.exists(f"{folder}/pcapfile"):
        pytest.fail(f"{folder}/pcapfile is not built: run 'make'")
    return folder
