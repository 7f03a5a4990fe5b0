"""The C extension `_native`, or None if it was not built. PCAPFILE_NATIVE=0 disables it."""

import os
from typing import Any

native: Any = None
if os.environ.get("PCAPFILE_NATIVE") != "0":
    try:
        from . import _native as native
    except ImportError:
        pass


class _Open:
    """Records whether a capture is open. A walk checks it before each packet."""

    __slots__ = ("is_closed",)

    def __init__(self) -> None:
        self.is_closed = False

    def close(self) -> None:
        self.is_closed = True


Open: Any = _Open if native is None else native.Open
