"""The client of `geocom.h`: bytes, targets and moments go in, and settlements come out. It opens no
port and reads no clock.
"""

from __future__ import annotations

import collections
import ctypes
import enum
import threading
from collections.abc import Callable, Sequence
from typing import Any

from ._library import LINE_ROOM, TEXT_ROOM, WINDOW, _Client, _Settlement, load
from .errors import check
from .settlement import Outcome, Reading, Settlement
from .values import Listed

# The ids of the null procedures of a synchronization, and the replies to them.
_IDS = (6, 5, 4, 3, 2, 1, 0, 7)
_ANSWERS = b"".join(b"%%R1P,0,%d:0\r\n" % id for id in _IDS)


class Kind(enum.IntEnum, metaclass=Listed):
    """What some bytes ended."""

    MORE = 0
    SETTLED = 1
    STRAY = 2
    UNREAD = 3
    CLEARED = 4
    OVERLONG = 5


# By their numbers.
_OUTCOMES, _READINGS, _KINDS = {int(it): it for it in Outcome}, [*Reading], [*Kind]
_REPLIES = (Kind.SETTLED, Kind.STRAY)


class Client:
    r"""A client that lets `width` requests be outstanding, 1 to 7. Threads may share one: a lock
    keeps its calls apart.

    >>> client = Client()
    >>> client.synchronize()
    b'%R1Q,0,6:\r\n'
    """

    def __init__(self, width: int = WINDOW):
        self._calls = load()
        self._state = _Client()
        self._records = (_Settlement * WINDOW)()
        self._line = ctypes.create_string_buffer(LINE_ROOM)
        self._text = ctypes.create_string_buffer(TEXT_ROOM)
        self._due = (ctypes.c_uint32 * WINDOW)()
        self._lock = threading.RLock()  # a signal's handler can leave one held
        #: how many feeds ended with which kind of line
        self.counts: collections.Counter[Kind] = collections.Counter()
        #: how many lines that are no replies had which first faulty field, 1 to 5
        self.line_faults: collections.Counter[int] = collections.Counter()
        #: how many replies came, those that no request was outstanding for among them
        self.replies = 0
        #: how many requests the last line ended that ended any; 1 at first, and after each restart
        self.last_ended = 1
        check(self._calls.geocom_client_init(self._state, width if 0 <= width < 256 else 0))

    def synchronize(self, data: bytes = b"") -> bytes:
        """Takes what came, and gives the line to write on the connection, with its CR LF; nothing
        where none goes out now.

        Eight null procedures are asked, one after the other, and all that came and answers none is
        discarded. Call it without data for the first line, and where nothing came in time: it gives
        the same line again. Once `is_synchronized`, requests go out.
        """
        came = bytes(data)
        with self._lock:
            told = self._calls.geocom_client_synchronize(
                self._state, came, len(came), self._line, LINE_ROOM
            )
            check(told.fault)
            return self._line.raw[: told.count]

    @property
    def is_synchronized(self) -> bool:
        """Whether all eight null procedures were answered, so that requests go out."""
        return bool(self._state.answered == len(_IDS))

    def send(self, target: int, deadline: int, procedure: int, params: str | bytes = b"") -> bytes:
        """Sends a request, and gives the line to write on the connection, with its CR LF.

        The target is a number of your own below 2 ** 32, and comes back with the settlement.
        Parameters have commas between them, as "5000,1". Raises NotSynchronized, UnknownProcedure,
        BadParameters or WindowFull, and then nothing has changed.

        A line may damage a reply, so that it has another id. Two rules keep the harm to the request
        that it answers, unless two lines in a row that settle something are damaged. After each
        synchronization send a null procedure first (procedure 0), alone, again at its deadline, and
        no other before a reply has settled one. And send only while `outstanding` and `last_ended`
        are together fewer than seven; where all that is outstanding has timed out and there is no
        room so, call `restart`. A `geocom.Station` keeps both by itself.
        """
        return self._sent(self._calls.geocom_client_send, target, deadline, procedure, params)

    def send_raw(
        self, procedure: int, params: str | bytes = b"", *, target: int, deadline: int
    ) -> bytes:
        """Sends a request of a procedure that isn't in the table, and gives the line to write on
        the connection.

        The parameters go out exactly as they stand: bytes other than CR and LF, at most 16 items,
        at most 512 bytes of line. What an answer with both codes 0 says is text: its reading is
        VALUE, and `items` has the items of its parameters.

        Ids come round after eight requests, and an instrument may keep its reply over a procedure
        that it doesn't know. So after six raw requests in a row send a null procedure (`send` with
        procedure 0), send on once it, or another one after it, is answered, and drop what it says.
        An instrument that knows each procedure which is asked needs none of it. A `geocom.Station`
        does so by itself.

        Raises NotSynchronized, InTable, BadParameters, LineTooLong or WindowFull, and then nothing
        has changed.
        """
        return self._sent(self._calls.geocom_client_send_raw, target, deadline, procedure, params)

    def _sent(
        self,
        call: Callable[..., Any],
        target: int,
        deadline: int,
        procedure: int,
        params: str | bytes,
    ) -> bytes:
        text = params.encode("latin-1") if isinstance(params, str) else bytes(params)
        within(target, 32)
        within(deadline, 64)
        within(procedure, 16)
        with self._lock:
            sent = call(
                self._state, target, deadline, procedure, text, len(text), self._line, LINE_ROOM
            )
            check(sent.fault)
            return self._line.raw[: sent.count]

    def feed(self, data: bytes) -> list[Settlement]:
        """Takes bytes as they come from a port, in any pieces, and gives the settlements, in order.
        """
        left = bytes(data)
        settled: list[Settlement] = []
        with self._lock:
            while left:
                heard = self._calls.geocom_client_feed(
                    self._state, left, len(left), self._records, WINDOW, self._text, TEXT_ROOM
                )
                check(heard.fault)
                left = left[heard.used :]
                kind = _KINDS[heard.kind]
                self.counts[kind] += 1
                self.replies += kind in _REPLIES
                if kind is Kind.UNREAD:
                    self.line_faults[heard.line_fault] += 1
                elif kind is Kind.SETTLED:
                    settled += self._settled(heard.count)
                    self.last_ended = heard.count
        return settled

    def expire(self, now: int) -> list[int]:
        """Times out each request whose deadline is at most this moment, and gives the targets of
        those that hadn't timed out before.

        They stay outstanding: a reply settles them as late.
        """
        within(now, 64)
        with self._lock:
            due = self._calls.geocom_client_expire(self._state, now, self._due, WINDOW)
            check(due.fault)
            return list(self._due[: due.count])

    def next_deadline(self) -> int | None:
        """The earliest deadline of the outstanding requests that haven't timed out."""
        with self._lock:
            earliest = self._calls.geocom_client_next_deadline(self._state)
        check(earliest.fault)
        return int(earliest.deadline) if earliest.is_set else None

    def restart(self) -> list[Settlement]:
        """Settles all that is outstanding as lost. A client that had synchronized has to do so
        again: `synchronize` comes next.

        One that hadn't goes on with the null procedure that it was at. Nothing has to be vouched
        for: what is in flight may stay so. For another instrument or line make a new client.
        """
        with self._lock:
            lost = self._calls.geocom_client_restart(self._state, self._records, WINDOW)
            check(lost.fault)
            self.last_ended = 1
            return self._settled(lost.count)

    @property
    def outstanding(self) -> int:
        """How many requests are outstanding, those that timed out among them."""
        with self._lock:
            outstanding = self._calls.geocom_client_outstanding(self._state)
        check(outstanding.fault)
        return int(outstanding.count)

    @property
    def current(self) -> int:
        """How many outstanding requests haven't timed out."""
        with self._lock:
            state = self._state
            return sum(not each.timed_out for each in state.requests[: state.outstanding])

    def _settled(self, count: int) -> list[Settlement]:
        return settlements(self._records[:count], self._text.raw)


def settlements(records: Sequence[_Settlement], text: bytes) -> list[Settlement]:
    """What the library wrote of requests that ended, with the text in which their items are."""
    return [
        Settlement(
            target=r.target,
            procedure=r.procedure,
            outcome=_OUTCOMES[r.outcome],
            reading=_READINGS[r.reading],
            code=r.code,
            line=text[: r.line_length].decode("latin-1") if r.line_length else None,
            items=tuple(
                text[it.offset : it.offset + it.length].decode("latin-1")
                for it in r.item_spans[: r.items]
            ),
        )
        for r in records
    ]


def synchronized() -> Client:
    """A client with nothing on any line, which has synchronized."""
    client = Client(1)
    client.synchronize(_ANSWERS)
    return client


def within(number: int, bits: int) -> None:
    """ctypes cuts a number that is too wide, silently: so it is refused here."""
    if not 0 <= number < 1 << bits:
        raise ValueError(f"{number} has more than {bits} bits")
