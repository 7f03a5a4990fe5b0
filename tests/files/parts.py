"""The parts of tests/files, by their names. Each part is a function of a tally."""
import functools
import os
import sys

# The modules below use those of tests/ too.
sys.path.append(os.path.dirname(os.path.dirname(os.path.abspath(__file__))))
import ample  # noqa: E402
import as_is  # noqa: E402
import asking  # noqa: E402
import changing  # noqa: E402
import coming  # noqa: E402
import converting  # noqa: E402
import cutting  # noqa: E402
import describing  # noqa: E402
import dumping  # noqa: E402
import folders  # noqa: E402
import foreign  # noqa: E402
import gaps  # noqa: E402
import informing  # noqa: E402
import line_ends  # noqa: E402
import listing  # noqa: E402
import moving  # noqa: E402
import outputs  # noqa: E402
import progress  # noqa: E402
import repairing  # noqa: E402
import selecting  # noqa: E402
import shown  # noqa: E402
import sorting  # noqa: E402
import sorting_blocks  # noqa: E402
import streams  # noqa: E402
import variants  # noqa: E402
from converting import SECONDS, TOP  # noqa: E402

# These make their captures by the functions of converting.py.
OVER_CAPTURES = (
    converting, cutting, selecting, changing, moving, foreign, as_is, repairing, line_ends, describing, variants, informing, listing, dumping,
    folders, ample, asking, sorting, sorting_blocks,
)
ALONE = (progress, outputs, streams, gaps)
PARTS = {
    **{it.__name__: functools.partial(it.try_all, help=converting) for it in OVER_CAPTURES},
    **{it.__name__: it.try_all for it in ALONE},
    "shown": functools.partial(shown.try_all, top=TOP, seconds=SECONDS),
    "coming": functools.partial(coming.try_all, help=converting, top=TOP),
}
