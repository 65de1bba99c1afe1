"""The station of `geocom.Station` for asyncio: each call that asks is awaited."""

from __future__ import annotations

import asyncio
from collections.abc import AsyncIterator, Iterable
from typing import Any, Optional

from ..asked import Asked
from ..chains import Chain, Cycle, Pace, Row, ended, is_good, make_request, requests, skipped
from ..described import Description
from ..errors import NotReady
from ..settlement import Request, Settlement
from ..values import Parameter, milliseconds
from .named import Aut, Bap, Com, Csv, Tmc
from .ports import Where, opener
from .turns import Turns


class Station:
    """As `geocom.Station`, over a path with a `/`, "HOST:PORT", a port of this machine, or a call
    that opens streams.

    Up to `width` requests are in flight at a time, 1 to 7, and no more than six, since the station
    holds back; further ones wait their turn, in order.
    A call that is cancelled leaves its request on the line: what becomes of it is dropped, and it
    times out at its deadline.
    """

    def __init__(
        self,
        port: Where,
        *,
        timeout: float = 10.0,
        settle: float = 2.0,
        baud: int = 19200,
        accept: Iterable[int] = (),
        width: int = 1,
    ):
        self.timeout, self.accept = timeout, tuple(accept)
        self._described: dict[int, Description] = {}
        self._session = Asked(width, milliseconds(timeout), milliseconds(settle, 0))
        self._turns = Turns(opener(port, baud), self._session)
        #: The procedures by their names.
        self.aut, self.bap, self.com = Aut(self), Bap(self), Com(self)
        self.csv, self.tmc = Csv(self), Tmc(self)

    async def __aenter__(self) -> Station:
        try:
            await self.synchronize()
        except BaseException:
            await self.close()
            raise
        return self

    async def __aexit__(self, *_: object) -> None:
        await self.close()

    async def synchronize(self, timeout: Optional[float] = None) -> None:
        """As `geocom.Station.synchronize`."""
        patience = milliseconds(3 * self.timeout if timeout is None else timeout)
        self._turns.join()
        if not self._session.is_ready:
            self._turns.failure = None
            if timeout is None:
                patience += self._session.delay(self._turns.now())
            await self._turns.wait(object(), patience)

    async def close(self) -> None:
        """Closes the connection. A later request makes it anew."""
        await self._turns.close()

    async def ask(
        self,
        procedure: int,
        *parameters: Parameter,
        target: int = 0,
        timeout: Optional[float] = None,
    ) -> Settlement:
        """As `geocom.Station.ask`."""
        timeout = self._patience(timeout)
        asked = make_request(procedure, parameters, target, timeout, self._described)
        return await self._alone(asked)

    async def raw(
        self,
        procedure: int,
        *parameters: Parameter,
        target: int = 0,
        timeout: Optional[float] = None,
    ) -> Settlement:
        """As `geocom.Station.raw`."""
        asked = make_request(procedure, parameters, target, self._patience(timeout), None)
        return await self._alone(asked)

    def describe(self, text: str) -> Description:
        """As `geocom.Station.describe`."""
        description = Description.of(text)
        self._described[description.procedure] = description
        return description

    async def value_of(
        self,
        number: int,
        parameters: tuple[Parameter, ...],
        target: int = 0,
        timeout: Optional[float] = None,
    ) -> Any:
        """As `geocom.Station.value_of`."""
        settlement = await self.ask(number, *parameters, target=target, timeout=timeout)
        return settlement.value(self.accept)

    @property
    def sign_ons(self) -> int:
        """As `geocom.Station.sign_ons`."""
        return self._session.sign_ons

    async def measure(self, chain: Chain) -> list[Row]:
        """As `geocom.Station.measure`: what others ask waits until the chain is done."""
        return await self._measure(chain, self.sign_ons)

    async def _measure(self, chain: Chain, known: int) -> list[Row]:
        rows: list[Row] = []
        accept = (*self.accept, *chain.accept)
        asked = requests(chain, self._patience(chain.timeout), known, self._described)
        within = None
        async with self._turns.join():
            for index, request in enumerate(asked):
                request.within = within
                try:
                    settlement = await self._ask(request)
                except NotReady:
                    break
                rows.append(ended(index, request, settlement, accept))
                within = request.interruptions
                if not is_good(settlement, accept):
                    break
        return rows + [skipped(chain, index) for index in range(len(rows), len(chain.commands))]

    async def cycles(
        self,
        chains: Iterable[Chain],
        every: Optional[float] = None,
        count: Optional[int] = None,
    ) -> AsyncIterator[Cycle]:
        """As `geocom.Station.cycles`."""
        loop = asyncio.get_running_loop()
        chains, pace = list(chains), Pace(every, count)
        while pace.goes_on:
            if (wait := pace.due(loop.time())) > 0:
                await asyncio.sleep(wait)
            if pace.begin(loop.time()):
                known = self.sign_ons
                rows = [row for chain in chains for row in await self._measure(chain, known)]
                yield Cycle(pace.number, rows)
            else:
                yield Cycle(pace.number, [], is_missed=True)

    def _patience(self, timeout: Optional[float]) -> float:
        return self.timeout if timeout is None else timeout

    async def _alone(self, request: Request) -> Settlement:
        """Asks once no chain is measured: nothing goes out between a chain's commands."""
        request.known = self.sign_ons
        async with self._turns.join():
            pass
        return await self._ask(request)

    async def _ask(self, request: Request) -> Settlement:
        self._turns.wanted.append(request)
        try:
            await self._turns.wait(request, request.timeout)
            return request.end()
        finally:
            if request in self._turns.wanted:
                self._turns.wanted.remove(request)
