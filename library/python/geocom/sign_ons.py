"""Sign-ons: lines that an instrument sends by itself when it is switched on or off. Which lines
they are is the library's to say.
"""

from __future__ import annotations

from ._library import load


def is_sign_on(line: str | bytes) -> bool:
    """Whether a line, without its CR LF, has a sign-on in it.

    >>> is_sign_on("%N1,0,255,,0%T0,0,0,:"), is_sign_on("%R1P,0,1:0")
    (True, False)
    """
    text = line.encode("latin-1") if isinstance(line, str) else bytes(line)
    return bool(load().geocom_is_sign_on(text, len(text)))
