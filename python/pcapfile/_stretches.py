"""Columns of a capture, with several threads that each walk over a stretch of it."""

from collections import deque
from concurrent.futures import Future, ThreadPoolExecutor
from itertools import chain
from typing import TYPE_CHECKING, Any, Deque, Iterator, List, NamedTuple, Optional, Tuple, Union

from ._columns import of_walk
from ._errors import CaptureError, Incomplete
from ._extras import Wanted
from ._source import PIECE_OF_MANY
from ._windows import room_of

if TYPE_CHECKING:
    from ._source import File, Memory

# How many bytes of a capture a thread walks over at once.
_STRETCH = 1 << 24

# How many bytes the guess of a stretch's beginning searches.
_SEARCHED = 1 << 20

# How many of these bytes it searches first; they mostly suffice.
_NEAR = 1 << 14


def side_by_side(walk: Any, source: "Union[Memory, File]", end: int, batch: int, threads: int, wanted: Wanted) -> Iterator[Any]:
    """Iterates over the columns of a walk up to the offset `end`, in the capture's order. `threads` threads walk over stretches
    of it.

    The beginning of a stretch is a guess. The result for a stretch counts only if the walk before it ends exactly there, with the
    same section and interfaces. Otherwise the stretch is walked over again from the right place."""
    begin = walk.window.offset
    seems = walk.ahead(source.read(begin, end))
    stretches = _guessed(seems, source, begin, end, threads)
    waiting: Deque[Tuple[int, int, Any, "Future[_Walked]"]] = deque()
    pool, most, ahead = ThreadPoolExecutor(threads), 2 * threads, 2 * threads
    rooms = deque(room_of(PIECE_OF_MANY) for _ in range(threads + 1))
    reached, now = begin, walk
    try:
        while True:
            while len(waiting) < ahead and (stretch := next(stretches, None)):
                start = walk if stretch[0] == begin else seems
                waiting.append((*stretch, start.state, pool.submit(_walked, start, source, *stretch, (batch, wanted), rooms)))
            if not waiting:
                break
            first, last, state, walked = waiting.popleft()
            if state != now.state:
                for others in waiting:
                    others[3].cancel()
                stretches = chain([other[:2] for other in waiting], stretches)
                waiting.clear()
                seems, ahead = now, 1
            if first == reached and state == now.state:
                found, ahead = walked.result(), min(2 * ahead, most)
            else:
                found = _walked(now, source, reached, last, (batch, wanted), rooms)
            yield from found.columns
            reached, now = last, found.walk
            if found.refusal is not None:
                if last == end or not isinstance(found.refusal, Incomplete):
                    raise found.refusal
                reached = found.refusal.offset
    finally:
        pool.shutdown(cancel_futures=True)


class _Walked(NamedTuple):
    """The result of a walk over a stretch: all columns, the walk at its end, and the error there or None."""

    columns: List[Any]
    walk: Any
    refusal: Optional[CaptureError]


def _walked(
    start: Any, source: "Union[Memory, File]", begin: int, end: int, asked: Tuple[int, Wanted], rooms: Deque[memoryview]
) -> _Walked:
    """Walks over the bytes between two offsets. It reads them into one of the buffers, of which there is one for each thread."""
    columns: List[Any] = []
    room, refusal = rooms.pop(), None
    walk = start.over(source.read(begin, end, room))
    try:
        for rows in of_walk(walk, *asked):
            columns.append(rows)
    except CaptureError as error:
        refusal = error
    rooms.append(room)
    return _Walked(columns, walk, refusal)


def _guessed(walk: Any, source: "Union[Memory, File]", begin: int, end: int, threads: int) -> Iterator[Tuple[int, int]]:
    """Guesses stretches of about equal length between two offsets, the same number for each thread. Each ends where packets seem
    to begin again."""
    count = threads * -(-(end - begin) // (threads * _STRETCH))
    for place in [begin + (end - begin) * k // count for k in range(1, count)]:
        guesses = (walk.guess(source.view(place, min(place + size, end)), place) for size in (_NEAR, _SEARCHED))
        guess = next((found for found in guesses if found is not None), None)
        if guess is not None and begin < guess < end:
            yield begin, guess
            begin = guess
    yield begin, end
