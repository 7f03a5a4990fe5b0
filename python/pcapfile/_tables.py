"""Columns and DataFrames of the packets of a capture."""

from typing import TYPE_CHECKING, Any, Callable, Iterator, List, Optional

from . import _arguments, _columns
from ._columns import COLUMNS, JOINED
from ._extension import native
from ._extras import Wanted, wanted_of
from ._filter import Moment
from ._source import PIECE_TO_DECODE, File, Source
from ._streams import Stream
from ._windows import room_of

if TYPE_CHECKING:
    from ._arrow import Arrow


class Tables:
    """The methods of captures of both formats that give columns."""

    if TYPE_CHECKING:
        _source: Source
        _rows: List[Any]

        def _begun(self, kind: Any, begin: Callable[[], Iterator[Any]]) -> Iterator[Any]: ...
        def _packets(self) -> Iterator[Any]: ...
        def _walk(self, lends: bool = True) -> Any: ...
        def _end(self) -> int: ...

    def columns(
        self,
        batch: int = COLUMNS,
        threads: int = 1,
        *,
        names: bool = False,
        data: bool = False,
        since: Optional[Moment] = None,
        until: Optional[Moment] = None,
    ) -> Iterator[Any]:
        """Iterates over the packets as columns, `batch` packets at a time: arrays of numpy with the fields `time_ns`, `len`,
        `orig_len`, `interface`, `link` and `offset`. Without numpy each batch is a dict with an `array` for each name.

        `time_ns` is in nanoseconds since 1970. It is -2^63, numpy's NaT, if a packet has no time or its time exceeds 64 bits.
        `len` is the stored length and `orig_len` the original length, both in bytes. `offset` is where the stored bytes begin in
        the capture. `interface` is the number of the interface in its section. `link` is the number of the link type, or 2^32 - 1
        if the interface is unknown.

        With `names` or `data` each batch is a dict of arrays. `names` adds `interface_name`, a text or None. `data` adds `data`,
        the bytes of all packets, and `data_offsets`. These are the places in `data` at which each packet begins, and then the
        place at which the last one ends. `since` and `until` choose packets by their times, as in `filter`.

        With numpy, `threads` threads walk over stretches of a capture in memory or in a file. The packets come in the same order,
        but a batch at the end of a stretch is smaller. A stream uses one thread.

        If the capture is truncated or malformed, the packets before the fault come first, and then a `CaptureError`. It raises a
        ValueError if `batch` or `threads` is below 1.

            >>> with pcapfile.open("capture.pcap") as capture:
            ...     [rows["len"].tolist() for rows in capture.columns()]
            [[98]]
        """
        return self._wanted(batch, threads, wanted_of(names, data, False, since, until))

    def _wanted(self, batch: int, threads: int, wanted: Wanted) -> Iterator[Any]:
        batch, threads = _arguments.whole("batch", batch, 1), _arguments.whole("threads", threads, 1)
        if threads > 1 and _columns.numpy is not None and not isinstance(self._source, Stream):
            return self._side_by_side(batch, threads, wanted)
        return self._begun(("columns", batch, wanted), lambda: self._columns(batch, wanted))

    def _columns(self, batch: int, wanted: Wanted) -> Iterator[Any]:
        return _columns.of_packets(self._packets(), batch, wanted) if _columns.numpy is None else self._arrays(batch, wanted)

    def _arrays(self, batch: int, wanted: Wanted) -> Iterator[Any]:
        walk = self._walk(lends=False)
        if wanted.decode and isinstance(self._source, File) and native is None:
            # numpy is fast on large arrays, so each call gets many packets.
            walk.window = self._source.read(walk.window.offset, self._end(), room_of(PIECE_TO_DECODE))
        return _columns.of_walk(walk, batch, wanted)

    def _side_by_side(self, batch: int, threads: int, wanted: Wanted) -> Iterator[Any]:
        from ._stretches import side_by_side

        source = self._source
        assert not isinstance(source, Stream), "a stream has one walk"
        return side_by_side(self._walk(lends=False), source, self._end(), batch, threads, wanted)

    def to_pandas(
        self,
        threads: int = 1,
        *,
        decode: bool = False,
        names: bool = False,
        since: Optional[Moment] = None,
        until: Optional[Moment] = None,
    ) -> Any:
        """Returns a DataFrame of pandas with all packets: `time`, which is NaT for a packet without a time, and the other columns
        of `columns`.

        With `decode`, it also has `source` and `destination`, which are IP addresses as texts, and `source_port`,
        `destination_port` and `protocol`. It decodes IP in Ethernet, also with VLAN tags, raw IP, and Linux cooked captures.
        Other or truncated headers are NA. It checks nothing else, and joins no fragments. Decoding uses one thread.

        `names`, `since` and `until` have the meanings that they have for `columns`.

        It raises an ImportError without numpy and pandas, a ValueError for `decode` with several threads or with `strict=False`,
        and a `CaptureError` for a truncated or malformed capture.

            >>> with pcapfile.open("capture.pcap") as capture:
            ...     int(capture.to_pandas()["len"].sum())
            98
        """
        if decode and threads != 1:
            raise ValueError("decode=True needs threads=1")
        if decode and _columns.numpy is None:
            raise ImportError("to_pandas needs numpy and pandas: 'pip install pandas', or Debian's python3-pandas")
        wanted = wanted_of(names, False, decode, since, until)
        if isinstance(self._source, Stream):
            return _columns.to_pandas(self._kept(wanted), 0, wanted)
        if threads == 1:
            batches = self._wanted(JOINED, 1, wanted._replace(is_copied=True))
        else:
            batches = self._wanted(COLUMNS, threads, wanted)
        return _columns.to_pandas(batches, self._end(), wanted)

    def to_arrow(
        self, *, names: bool = False, data: bool = False, since: Optional[Moment] = None, until: Optional[Moment] = None
    ) -> "Arrow":
        """Returns all packets as columns of Arrow, which `pyarrow.table`, `polars.DataFrame` and others accept directly, batch by
        batch. The columns are `time` in nanoseconds of UTC, `len`, `orig_len`, `interface`, `link` and `offset`. A missing
        time or link type is null.

        `names` adds `interface_name`, and `data` adds the bytes as `data`. `since` and `until` have the meanings that they have
        for `columns`.

            >>> with pcapfile.open("capture.pcap") as capture:
            ...     [column.name for column in capture.to_arrow().columns]
            ['time', 'len', 'orig_len', 'interface', 'link', 'offset']
        """
        from ._arrow import Arrow, columns_of

        wanted = wanted_of(names, data, False, since, until)
        return Arrow(lambda: self._wanted(COLUMNS, 1, wanted), columns_of(names, data))

    def __arrow_c_stream__(self, requested_schema: Any = None) -> Any:
        """Returns the stream of `to_arrow`."""
        return self.to_arrow().__arrow_c_stream__(requested_schema)

    def to_polars(self, **words: Any) -> Any:
        """Returns a DataFrame of polars with all packets. It has the columns and the parameters of `to_arrow`. It raises an
        ImportError without polars, and a `CaptureError` for a truncated or malformed capture.

            >>> with pcapfile.open("capture.pcap") as capture:
            ...     capture.to_polars()["len"].sum()
            98
        """
        try:
            import polars
        except ImportError as error:
            raise ImportError("to_polars needs polars: 'pip install polars'") from error
        arrow = self.to_arrow(**words)
        try:
            return polars.DataFrame(arrow)
        except Exception:
            if arrow.error is not None:
                raise arrow.error from None
            raise

    def _kept(self, wanted: Wanted) -> Iterator[Any]:
        """Iterates over all rows of a stream. First come those that it gave before it had to wait for bytes."""
        for rows in self._begun(("to_pandas", wanted), lambda: self._columns(COLUMNS, wanted)):
            self._rows.append(_columns.copied(rows))
        kept, self._rows = self._rows, []
        yield from kept
