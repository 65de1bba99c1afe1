"""libgeocom.so, as `geocom.h` has it: its numbers, its structures, and its calls. It is loaded at
the first use.
"""

from __future__ import annotations

import ctypes
import functools
import os
import pathlib
from typing import Any

VERSION = 2
WINDOW = 7
OWN = 4294967295
LINE_ROOM = 514
TEXT_ROOM = 1024
REPLY_ROOM = 514
MOST_ITEMS = 16
NAME_ROOM = 32


_SIZE = ctypes.c_size_t
_U8, _U16, _U32, _U64 = ctypes.c_uint8, ctypes.c_uint16, ctypes.c_uint32, ctypes.c_uint64


def _all(kind: Any, names: str) -> list[tuple[str, Any]]:
    """Fields of one kind."""
    return [(name, kind) for name in names.split()]


class _Request(ctypes.Structure):
    _fields_ = [
        ("deadline", _U64),
        ("target", _U32),
        ("length", _U16),
        ("timed_out", _U8),
        ("line", _U8 * 512),
    ]


class _PartialLine(ctypes.Structure):
    _fields_ = [("length", _U16), ("bytes", _U8 * 514)]


class _Client(ctypes.Structure):
    _fields_ = [
        ("requests", _Request * WINDOW),
        ("partial_line", _PartialLine),
        *_all(_U8, "width next outstanding answered"),
    ]


class _ItemSpan(ctypes.Structure):
    _fields_ = _all(_U16, "offset length")


class _Settlement(ctypes.Structure):
    _fields_ = [
        ("target", _U32),
        *_all(_U16, "procedure code line_length items"),
        ("item_spans", _ItemSpan * MOST_ITEMS),
        *_all(_U8, "outcome reading"),
    ]


class _Count(ctypes.Structure):
    _fields_ = _all(_U32, "fault count")


class _Deadline(ctypes.Structure):
    _fields_ = [("deadline", _U64), *_all(_U32, "fault is_set")]


class _Synchronization(ctypes.Structure):
    _fields_ = _all(_U32, "fault count answered is_synchronized")


class _FeedResult(ctypes.Structure):
    _fields_ = [("used", _SIZE), *_all(_U32, "fault count kind line_fault")]


class _Session(ctypes.Structure):
    _fields_ = [
        ("client", _Client),
        *_all(_U64, "timeout settle moment patience interruptions sign_ons idle_since"),
        *_all(_U64, "null_deadline hold_until wait_since no_reply_since pause"),
        *_all(_U8, "width phase is_idle has_asked awaits_reply must_resynchronize"),
        *_all(_U8, "requests_since_table_call last_ended has_listened"),
    ]


class _Step(ctypes.Structure):
    _fields_ = [("until", _U64), *_all(_U32, "fault act bytes count")]


class _Status(ctypes.Structure):
    _fields_ = [
        *_all(_U64, "interruptions sign_ons"),
        *_all(_U32, "fault is_up is_ready outstanding current"),
    ]


class _Column(ctypes.Structure):
    _fields_ = [("name", _U8 * NAME_ROOM), *_all(_U8, "length kind")]


class _Description(ctypes.Structure):
    _fields_ = _all(_U32, "fault procedure parameters columns more")


class _Answer(ctypes.Structure):
    _fields_ = [
        ("fault", _U32),
        *_all(_U16, "code items columns"),
        ("item_spans", _ItemSpan * MOST_ITEMS),
        ("reading", _U8),
    ]


class _SceneFault(ctypes.Structure):
    _fields_ = _all(_U32, "fault line")


class _Reply(ctypes.Structure):
    _fields_ = [
        ("used", _SIZE),
        ("due", _U64),
        *_all(_U32, "fault count"),
        ("reply", _U8 * REPLY_ROOM),
    ]


#: The structures of `geocom.h` by their names there.
STRUCTURES: dict[str, type[ctypes.Structure]] = {
    "geocom_request": _Request,
    "geocom_partial_line": _PartialLine,
    "geocom_client": _Client,
    "geocom_item_span": _ItemSpan,
    "geocom_settlement": _Settlement,
    "geocom_count": _Count,
    "geocom_deadline": _Deadline,
    "geocom_synchronization": _Synchronization,
    "geocom_feed_result": _FeedResult,
    "geocom_session": _Session,
    "geocom_step": _Step,
    "geocom_status": _Status,
    "geocom_column": _Column,
    "geocom_description": _Description,
    "geocom_answer": _Answer,
    "geocom_scene_fault": _SceneFault,
    "geocom_reply": _Reply,
}

_STATE = ctypes.POINTER(_Client)
_RECORDS = ctypes.POINTER(_Settlement)
_TEXT = [ctypes.c_char_p, _SIZE]
_SESSION = ctypes.POINTER(_Session)
_SEND = [_STATE, _U32, _U64, _U16, *_TEXT, *_TEXT]
_ASK = [_SESSION, *_SEND[1:]]
_CALLS: dict[str, tuple[Any, list[Any]]] = {
    "geocom_version": (_U32, []),
    "geocom_is_sign_on": (_U32, _TEXT),
    "geocom_client_init": (_U32, [_STATE, _U8]),
    "geocom_client_synchronize": (_Synchronization, [_STATE, *_TEXT, *_TEXT]),
    "geocom_client_send": (_Count, _SEND),
    "geocom_client_send_raw": (_Count, _SEND),
    "geocom_client_feed": (_FeedResult, [_STATE, *_TEXT, _RECORDS, _SIZE, *_TEXT]),
    "geocom_client_expire": (_Count, [_STATE, _U64, ctypes.POINTER(_U32), _SIZE]),
    "geocom_client_next_deadline": (_Deadline, [_STATE]),
    "geocom_client_restart": (_Count, [_STATE, _RECORDS, _SIZE]),
    "geocom_client_outstanding": (_Count, [_STATE]),
    "geocom_session_init": (_U32, [_SESSION, _U8, _U64, _U64]),
    "geocom_session_next": (_Step, [_SESSION, _U32, _U64, _RECORDS, _SIZE, *_TEXT]),
    "geocom_session_ask": (_Count, _ASK),
    "geocom_session_ask_raw": (_Count, _ASK),
    "geocom_session_opened": (_U32, [_SESSION, _U64]),
    "geocom_session_closed": (_U32, [_SESSION, _U64]),
    "geocom_session_feed": (_FeedResult, [_SESSION, _U64, *_TEXT, _RECORDS, _SIZE, *_TEXT]),
    "geocom_session_restart": (_Count, [_SESSION, _RECORDS, _SIZE]),
    "geocom_session_status": (_Status, [_SESSION]),
    "geocom_description_read": (_Description, [*_TEXT, ctypes.POINTER(_Column), _SIZE]),
    "geocom_description_params": (_U32, [*_TEXT, *_TEXT]),
    "geocom_description_reply": (_Answer, [*_TEXT, *_TEXT, *_TEXT]),
    "geocom_instrument_size": (_SIZE, []),
    "geocom_instrument_init": (_SceneFault, [ctypes.c_void_p, *_TEXT]),
    "geocom_instrument_feed": (_Reply, [ctypes.c_void_p, *_TEXT, _U64]),
    "geocom_instrument_restart": (_U32, [ctypes.c_void_p]),
}


def _path() -> str:
    """What GEOCOM_LIBRARY names; else the file in this package's folder or beside it; else the
    system's.
    """
    if named := os.environ.get("GEOCOM_LIBRARY"):
        return named
    here = pathlib.Path(__file__).resolve().parent
    for folder in (here, here.parent):
        if (file := folder / "libgeocom.so").exists():
            return str(file)
    return f"libgeocom.so.{VERSION}"


@functools.lru_cache(maxsize=None)
def load() -> ctypes.CDLL:
    """The library. Raises OSError where there is none, and ImportError where it is of another
    version.
    """
    library = ctypes.CDLL(_path())
    for name, (result, arguments) in _CALLS.items():
        function = getattr(library, name)
        function.restype, function.argtypes = result, arguments
    if (version := library.geocom_version()) != VERSION:
        raise ImportError(f"libgeocom.so has version {version}, and this module is for {VERSION}")
    return library
