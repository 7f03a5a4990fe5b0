"""The parts of tests/files, each as a test. A part makes its files in folders of its own and removes them: pytest's folders are closed to
other users, as whom some runs are made."""
import pytest
from converting import Tally
from parts import PARTS


@pytest.mark.parametrize("part", PARTS)
def test_part(part, built):
    tally = Tally(f"{built}/pcapfile")
    PARTS[part](tally)
    assert tally.passed and not tally.failed
