r"""A total station over GeoCOM, asked so that each answer is its own request's: the proved client,
and the easy way to it.

>>> import geocom
>>> with geocom.Station(geocom.Instrument(), timeout=5) as station:
...     print(station.csv.get_instrument_no().serial)
123456

`Station` connects, synchronizes, asks, times out, reconnects and resynchronizes by itself;
`geocom.aio.Station` is the same for asyncio. The port of a real one is "/dev/ttyUSB0" or
"10.0.0.5:4001". Two ways to ask:

- by name: `station.tmc.get_simple_mea(5000, 1)` gives a named tuple, with the units in its names
  (`hz_rad`, `distance_m`), and raises `Refused`, `Late`, `Lost` or `Unreadable`, each a `NoValue`;
- by number: `station.ask(2108, 5000, 1, target=7, timeout=30)` gives a `Settlement`, be it
  answered, refused, late or lost; `settlement.value()` is the named tuple, or raises.
  `station.raw(number, ..)` asks what isn't in the table; once `station.describe(text)` has said
  what such a procedure takes and answers, `station.ask` does, too.

`Instrument(scene)` is the instrument of a scene, within the process, for tests of your own:
`geocom.testing` has a fixture of it for pytest.

`station.measure(chain)` runs a `Chain` of commands and gives its rows, `station.cycles(chains,
every=300)` all of them again and again.

How it is made:

- `Client` is the library's client (`libgeocom.so`, proved): which reply is whose, ids, deadlines,
  what a reply says. It opens no port and reads no clock; deadlines and moments are milliseconds of
  a count of yours. It is for a loop of your own.
- `session` is the library's session, which says what is done next over any number of connections:
  the rules of `docs/OPERATING.md`, and nothing of ports or clocks.
- `Station` and `aio.Station` do it, over `ports`; `asked` has which request is whose.
- `codes`, `results` and `named` are written of the tables of `docs/PROTOCOL.md`.

The library is loaded at the first client. `GEOCOM_LIBRARY` names another one. Messages go to the
logger `geocom`: lines as debug, what becomes of the connection as info.
"""

from __future__ import annotations

from ._library import LINE_ROOM as LINE_ROOM
from ._library import MOST_ITEMS as MOST_ITEMS
from ._library import REPLY_ROOM as REPLY_ROOM
from ._library import STRUCTURES as STRUCTURES
from ._library import TEXT_ROOM as TEXT_ROOM
from ._library import VERSION, WINDOW
from ._version import __version__
from .angles import degrees_to_rad, gon_to_rad, rad_to_degrees, rad_to_gon
from .chains import Chain, Cycle, Row
from .client import Client, Kind
from .codes import RC
from .described import Description
from .described import Field as Field
from .errors import BadParameters, BadScene, Fault, Late, Lost
from .errors import NotReady, NoValue, Refused, Restarted, Unreadable
from .errors import BadWidth as BadWidth
from .errors import InTable as InTable
from .errors import LineTooLong as LineTooLong
from .errors import NoClient as NoClient
from .errors import NoDescription as NoDescription
from .errors import NoInstrument as NoInstrument
from .errors import NoReply as NoReply
from .errors import NoRoom as NoRoom
from .errors import NotSynchronized as NotSynchronized
from .errors import UnknownProcedure as UnknownProcedure
from .errors import WindowFull as WindowFull
from .instrument import SIMULATOR, Instrument, Reply
from .modes import DistanceMode, InclinationMode, MeasureCommand, PositioningMode, RecognitionMode
from .program import Program as Program
from .settlement import Outcome, Reading, Settlement
from .sign_ons import is_sign_on
from .station import Station
from .values import Face, PrismType

# What `help` shows. Each further fault is public, too, and a `Fault`: `geocom.errors` has them.
__all__ = [
    "BadParameters",
    "BadScene",
    "Chain",
    "Client",
    "Cycle",
    "Description",
    "DistanceMode",
    "Face",
    "Fault",
    "InclinationMode",
    "Instrument",
    "Kind",
    "Late",
    "Lost",
    "MeasureCommand",
    "NoValue",
    "NotReady",
    "Outcome",
    "PositioningMode",
    "PrismType",
    "RC",
    "Reading",
    "RecognitionMode",
    "Refused",
    "Reply",
    "Restarted",
    "Row",
    "SIMULATOR",
    "Settlement",
    "Station",
    "Unreadable",
    "VERSION",
    "WINDOW",
    "__version__",
    "degrees_to_rad",
    "gon_to_rad",
    "is_sign_on",
    "rad_to_degrees",
    "rad_to_gon",
]
