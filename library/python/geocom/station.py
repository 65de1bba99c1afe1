"""A station over a port, which does what its session says: it blocks until a request is settled.
"""

from __future__ import annotations

import os
import threading
import time
from collections.abc import Callable, Iterable, Iterator
from typing import Any, Optional

from .asked import Asked
from .chains import Chain, Cycle, Pace, Row, ended, is_good, make_request, requests, skipped
from .described import Description
from .errors import NotReady
from .named import Aut, Bap, Com, Csv, Tmc
from .ports import Where, opener
from .session import Want
from .settlement import Request, Settlement
from .turns import Turns
from .values import Parameter, milliseconds


class Station(Turns):
    """A total station over a port: a path with a `/`, "HOST:PORT", a port of this machine, an open
    socket or port as pyserial has it, or a call that opens one.

    `timeout` is how long an answer may take, in seconds, where a call says nothing else: longer
    than the slowest answer when all is well. `settle` is how long a new connection within a run has
    to be silent before a request goes out on it. `baud` is the speed of a device. `accept` has
    return codes that are taken as 0, as `RC.GRC_TMC_ACCURACY_GUARANTEE`. Threads may share a
    station: it asks one request at a time.

    As a context manager it connects and synchronizes at once: eight null procedures are answered,
    by whose ids each reply to an earlier run is known and discarded. Without `with` it does so at
    the first request, before which a ninth goes out. Each further connection is made as the rules
    say.
    """

    def __init__(
        self,
        port: Where,
        *,
        timeout: float = 10.0,
        settle: float = 2.0,
        baud: int = 19200,
        accept: Iterable[int] = (),
        clock: Callable[[], float] = time.monotonic,
        sleep: Callable[[float], None] = time.sleep,
    ):
        self.timeout, self.accept = timeout, tuple(accept)
        self._described: dict[int, Description] = {}
        session = Asked(1, milliseconds(timeout), milliseconds(settle, 0))
        super().__init__(opener(port, baud), session, clock, sleep)
        self._lock, self._process = threading.RLock(), os.getpid()
        #: The procedures by their names.
        self.aut, self.bap, self.com = Aut(self), Bap(self), Com(self)
        self.csv, self.tmc = Csv(self), Tmc(self)

    def __enter__(self) -> Station:
        try:
            self.synchronize()
        except BaseException:
            self.close()
            raise
        return self

    def __exit__(self, *_: object) -> None:
        self.close()

    def synchronize(self, timeout: Optional[float] = None) -> None:
        """Connects, and synchronizes. Raises OSError where no connection is made, and NotReady
        where the instrument doesn't answer in time: three times the station's timeout, where
        nothing else is said, and the pause and the quiet time of a connection that isn't the first.
        """
        patience = milliseconds(3 * self.timeout if timeout is None else timeout)
        self._refuse_fork()
        with self._lock:
            self._enter()
            now, session = self._look(), self._session
            end = now + patience + (session.delay(now) if timeout is None else 0)
            self._failure = None
            while not session.is_ready and not self._failure and now < end:
                now = self._turn(Want.SEND, now, end)
            is_ready, failure = session.is_ready, self._failure
            self._leave(now)
        if not is_ready:
            raise failure or NotReady("the instrument answers no null procedure in time")

    def close(self) -> None:
        """Closes the connection, once no other thread's call is under way. A later request makes it
        anew, over an open socket excepted, which can't be made again.
        """
        if os.getpid() != self._process:
            return  # the connection is the other process's
        with self._lock:
            self._enter()
            if self._link:
                self._drop()
            self._leave(self._now())

    def ask(
        self,
        procedure: int,
        *parameters: Parameter,
        target: int = 0,
        timeout: Optional[float] = None,
    ) -> Settlement:
        """Asks a procedure of the table, and gives how it ended, at its deadline at the latest.

        The parameters are numbers, or texts as they stand on the line. The deadline is `timeout`
        seconds after the moment at which the request goes out. The settlement is answered, with a
        value or a refusal; late, where the reply came with the deadline past; or lost: no answer
        will be taken, and whether the instrument acted isn't known. An answer is the reply to this
        very request, on the premises of `docs/GUARANTEE.md`.

        Raises NotReady where the request could not go out within `timeout`, and Restarted, which is
        one, where a sign-on came first; BadParameters and UnknownProcedure as `Client.send` does.
        Nothing was asked then.
        """
        timeout = self._patience(timeout)
        return self._ask(make_request(procedure, parameters, target, timeout, self._described))

    def raw(
        self,
        procedure: int,
        *parameters: Parameter,
        target: int = 0,
        timeout: Optional[float] = None,
    ) -> Settlement:
        """As `ask`, of a procedure that isn't in the table. Texts go out exactly as they stand;
        what is answered is text.

        Behind seven of these in a row a null procedure goes out first. Raises InTable and
        LineTooLong, too.
        """
        timeout = self._patience(timeout)
        return self._ask(make_request(procedure, parameters, target, timeout, None))

    def describe(self, text: str) -> Description:
        """Takes what a text says of a procedure that isn't in the table: its parameters, and the
        columns of its answer's values, as in "2167 wait Long mode Long -> hz_rad Double v_rad
        Double ..", of which `..` says that further values may follow.

        From then on `ask`, `measure` and `cycles` check its parameters, and read its answers: the
        value is a named tuple of the columns, and `items` has all texts. It goes out as a raw
        request does. Raises NoDescription and InTable.
        """
        description = Description.of(text)
        self._described[description.procedure] = description
        return description

    def value_of(
        self,
        number: int,
        parameters: tuple[Parameter, ...],
        target: int = 0,
        timeout: Optional[float] = None,
    ) -> Any:
        """What `ask` answers: the procedure's named tuple. Raises Refused, Unreadable, Late and
        Lost.
        """
        return self.ask(number, *parameters, target=target, timeout=timeout).value(self.accept)

    @property
    def sign_ons(self) -> int:
        """How many sign-ons came since the first request: each says that the instrument was
        switched on or off. Where a call changes it, send your setup again.
        """
        return self._session.sign_ons

    def measure(self, chain: Chain) -> list[Row]:
        """Runs a chain, and gives a row for each command.

        A command goes out once the one before it was answered with a value, with no new connection,
        no new synchronization and no sign-on in between; else the rest of the chain is skipped.
        What the library refuses of any command is raised before one goes out.
        """
        return self._measure(chain, self.sign_ons)

    def _measure(self, chain: Chain, known: int) -> list[Row]:
        rows: list[Row] = []
        accept = (*self.accept, *chain.accept)
        asked = requests(chain, self._patience(chain.timeout), known, self._described)
        within = None
        self._refuse_fork()
        with self._lock:
            for index, request in enumerate(asked):
                request.within = within
                try:
                    settlement = self._ask(request)
                except NotReady:
                    break
                rows.append(ended(index, request, settlement, accept))
                within = request.interruptions
                if not is_good(settlement, accept):
                    break
        return rows + [skipped(chain, index) for index in range(len(rows), len(chain.commands))]

    def cycles(
        self,
        chains: Iterable[Chain],
        every: Optional[float] = None,
        count: Optional[int] = None,
    ) -> Iterator[Cycle]:
        """Measures all chains again and again, each cycle `every` seconds after the beginning of
        the one before it, or as soon as that is done; `count` cycles, or without end. A cycle that
        can't begin before the next one is due is missed. A sign-on ends a cycle: its other commands
        are skipped.
        """
        chains, pace = list(chains), Pace(every, count)
        while pace.goes_on:
            if (wait := pace.due(self._clock())) > 0:
                self._sleep(wait)
            if pace.begin(self._clock()):
                known = self.sign_ons
                rows = [row for chain in chains for row in self._measure(chain, known)]
                yield Cycle(pace.number, rows)
            else:
                yield Cycle(pace.number, [], is_missed=True)

    def _patience(self, timeout: Optional[float]) -> float:
        return self.timeout if timeout is None else timeout

    def _refuse_fork(self) -> None:
        """Two processes can't share a connection; and the lock may be held in the second."""
        if os.getpid() != self._process:
            raise RuntimeError("a station belongs to the process that made it: make one in each")

    def _ask(self, request: Request) -> Settlement:
        request.known = self.sign_ons if request.known is None else request.known
        self._refuse_fork()
        with self._lock:
            self._enter()
            now = self._look()
            limit = now + request.timeout
            while not request.is_over(now):
                if request.is_sent:
                    now = self._turn(Want.ANSWERS, now, request.deadline)
                elif now < limit and not self._session.is_skipped(request):
                    now = self._turn(Want.SEND, now, limit, request)
                else:
                    break
            failure = self._failure
            self._leave(now)
        if not request.is_sent:
            raise self._session.why_not(request, failure) from failure
        return request.end()
