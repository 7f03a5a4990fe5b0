"""The files that captures of this process read, which a Writer must not empty."""

import os
import stat
import threading
import weakref
from typing import Any, Tuple

# Each file that a capture opened, with its device and number. A file that nothing uses any more leaves by itself.
_FILES: "weakref.WeakKeyDictionary[Any, Tuple[int, int]]" = weakref.WeakKeyDictionary()
_LOCK = threading.Lock()


def begin(file: Any) -> None:
    """Records that a capture reads a file, until the file is closed."""
    status = os.fstat(file.fileno())
    if stat.S_ISREG(status.st_mode):
        with _LOCK:
            _FILES[file] = status.st_dev, status.st_ino


def check(name: Any) -> None:
    """Raises a ValueError if a capture that is not closed reads the file with this name, or with another name of the same file. An
    empty file has nothing to lose."""
    try:
        status = os.stat(name)
    except OSError:
        return  # opening the file reports the error
    if status.st_size == 0:
        return
    with _LOCK:
        is_read = any(place == (status.st_dev, status.st_ino) and not file.closed for file, place in _FILES.items())
    if is_read:
        raise ValueError(f"file is {name!r}, which is being read; close the capture first, or write to another file")
