"""What is raised. A `Fault` is a call that was refused: nothing has changed then. A `NoValue` is a
request that gave no value.
"""

from __future__ import annotations

import copyreg
from typing import TYPE_CHECKING, Any

from .codes import RC

if TYPE_CHECKING:
    from .settlement import Settlement


class _Kept(Exception):
    """An exception that is copied and pickled as it is, without the arguments that made it."""

    def __reduce__(self) -> Any:
        made = (type(self), *self.args)
        return copyreg.__newobj__, made, vars(self)  # type: ignore[attr-defined]


class Fault(_Kept):
    """A refusal, by its number. Nothing has changed then."""

    text = "refused"

    def __init__(self, number: int):
        super().__init__(f"fault {number}: {self.text}")
        self.number = number


class NoReply(Fault):
    """1 to 5: the line that a description is to read is no reply; its first faulty field."""

    text = "the line is no reply"


class LineTooLong(Fault):
    """6: the line of a raw request would have more than 512 bytes."""

    text = "the line would have more than 512 bytes"


class BadParameters(Fault):
    """11 to 15: the parameters don't read as the procedure's.

    Of raw ones: 11 a CR or LF, 13 an open quote, 14 more than 16.
    """

    text = "the parameters don't read"


class UnknownProcedure(Fault):
    """21: no procedure has the number."""

    text = "no procedure has the number"


class WindowFull(Fault):
    """31: as many requests are outstanding as the width allows."""

    text = "as many requests are outstanding as the width allows"


class BadWidth(Fault):
    """61: the width is not 1 to 7."""

    text = "the width is not 1 to 7"


class NoRoom(Fault):
    """62: less room than the call asks for."""

    text = "less room than the call asks for"


class NoClient(Fault):
    """63: the state is no client's, or no session's."""

    text = "the state is no client's, or no session's"


class NotSynchronized(Fault):
    """67: the client hasn't synchronized."""

    text = "the client hasn't synchronized"


class InTable(Fault):
    """68: the procedure is one of the table, which `send` asks, and no text describes."""

    text = "the procedure is one of the table: send asks it"


class NoDescription(Fault, ValueError):
    """71: the text describes no procedure."""

    def __init__(self, number: int, text: str = ""):
        self.text = f"{text!r} isn't of the form 'RPC NAME KIND .. -> COLUMN KIND ..'"
        super().__init__(number)


class BadWant(Fault):
    """72: what is wanted of a session is none of the three."""

    text = "what is wanted is none of the three"


class NotItsTurn(Fault):
    """73: it isn't a request's turn in a session."""

    text = "it isn't a request's turn"


class OwnTarget(Fault):
    """74: the target is that of a session's own requests."""

    text = "the target is that of a session's own requests"


class NoInstrument(Fault):
    """69: no instrument is there: its scene was refused."""

    text = "no instrument is there: its scene was refused"


class BadScene(Fault, ValueError):
    """41, 51, 52 or 53: the text is no scene. `line` is the number of its first faulty line, from
    1, or 0 where no line is at fault.
    """

    def __init__(self, number: int, line: int = 0, text: bytes = b""):
        self.text = _SCENE_FAULTS.get(number, "no scene")
        if line:
            self.text = f"line {line}: {_fault_of(text, line)}"
        super().__init__(number)
        self.line = line


_SCENE_FAULTS = {
    41: "more targets, faults, replies or delays than an instrument has",
    51: "a line has no form",
    52: "memory was refused",
    53: "more than 65,536 bytes",
}
#: The forms of a scene's lines, by their first words.
FORMS = {
    "serial": "serial N",
    "name": "name TEXT",
    "target": "target HZ V DISTANCE",
    "fault": "fault RPC RC [after COUNT] [for COUNT]"
    " or fault RPC restart [after COUNT] [for COUNT]",
    "answer": "answer RPC RC[,PARAMS]",
    "blocked": "blocked TARGET FROM TO",
    "drift": "drift TARGET HZ V D",
    "noise": "noise HZ V D SEED",
    "repeats": "repeats no",
    "behave": "behave WORD",
    "delay": "delay RPC MS",
    "busy": "busy queue or busy drop",
}


def _fault_of(text: bytes, line: int) -> str:
    """What is at fault in this line of a scene."""
    faulty = text.split(b"\n")[line - 1].rstrip(b"\r").decode("utf-8", "replace")
    if not (form := FORMS.get(faulty.split(" ")[0])):
        return f"{faulty!r} begins with no word of a scene"
    return f"{faulty!r} isn't of the form '{form}'"


_FAULTS: dict[int, type[Fault]] = {
    6: LineTooLong,
    21: UnknownProcedure,
    31: WindowFull,
    61: BadWidth,
    62: NoRoom,
    63: NoClient,
    67: NotSynchronized,
    68: InTable,
    69: NoInstrument,
    71: NoDescription,
    72: BadWant,
    73: NotItsTurn,
    74: OwnTarget,
} | {each: BadParameters for each in range(11, 16)} | {each: NoReply for each in range(1, 6)}


def check(number: int) -> None:
    """Raises the fault of a number, if it is one."""
    if number:
        raise _FAULTS.get(number, Fault)(number)


def check_description(number: int, text: str) -> None:
    """As `check`, of a text that is to describe a procedure."""
    if number == 71:
        raise NoDescription(number, text)
    check(number)


class NotReady(TimeoutError):
    """There was no connection to an instrument that answers, in time: the request was not sent."""


class Restarted(NotReady):
    """A sign-on came after the call: the instrument was switched on or off, and the request was
    not sent. Send your setup again, and then the request.
    """


def not_ready(failure: Exception | None, is_restarted: bool) -> NotReady:
    """That a request wasn't sent: as the instrument was switched on or off, or in time, and what
    the connection failed of.
    """
    if is_restarted:
        return Restarted("the instrument was switched on or off, and the request wasn't sent")
    why = f": {failure}" if failure else ""
    return NotReady(f"no instrument was ready for it in time{why}")


class NoValue(_Kept):
    """A request ended without a value. `settlement` is its end."""

    def __init__(self, settlement: Settlement, why: str):
        super().__init__(f"target {settlement.target}, procedure {settlement.procedure}: {why}")
        self.settlement = settlement


class Refused(NoValue):
    """The instrument refused: `code` says why, a return code or a communication code."""

    def __init__(self, settlement: Settlement):
        self.code = RC(settlement.code)
        super().__init__(settlement, f"{self.code.name} ({int(self.code)}): {self.code.text}")


class Unreadable(NoValue):
    """The answer's parameters don't read as the procedure's."""

    def __init__(self, settlement: Settlement):
        super().__init__(settlement, f"the answer doesn't read: {settlement.line}")


class Late(NoValue):
    """The reply came after the deadline, and was discarded."""

    def __init__(self, settlement: Settlement):
        super().__init__(settlement, "the reply came too late")


class Lost(NoValue):
    """No reply came in time, and none will be taken: whether the instrument acted isn't known."""

    def __init__(self, settlement: Settlement):
        super().__init__(settlement, "no reply came in time")
