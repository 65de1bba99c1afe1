"""Gon and degrees as the radians of requests and answers, and back, in exact decimals."""

from __future__ import annotations

from decimal import Decimal, InvalidOperation, localcontext

from .values import Parameter, parameter

_PI = Decimal("3.14159265358979323846264338327950288419716939937510")
# A picoradian is a thousandth of a millimetre at a thousand kilometres.
_LAST = Decimal("1e-12")


def gon_to_rad(gon: Parameter) -> Decimal:
    """Radians, to twelve places.

    >>> gon_to_rad("143.2394")
    Decimal('2.249999233723')
    """
    return _times(gon, _PI, 200)


def degrees_to_rad(degrees: Parameter) -> Decimal:
    """Radians, to twelve places.

    >>> degrees_to_rad(90)
    Decimal('1.570796326795')
    """
    return _times(degrees, _PI, 180)


def rad_to_gon(rad: Parameter) -> Decimal:
    """Gon, to twelve places.

    >>> float(rad_to_gon("2.25"))
    143.239448782706
    """
    return _times(rad, 200, _PI)


def rad_to_degrees(rad: Parameter) -> Decimal:
    """Degrees, to twelve places.

    >>> f"{rad_to_degrees(Decimal('1.625')):.4f}"
    '93.1056'
    """
    return _times(rad, 180, _PI)


def _times(angle: Parameter, factor: Decimal | int, divisor: Decimal | int) -> Decimal:
    try:
        with localcontext() as context:
            context.prec = 50
            return (Decimal(parameter("Double", angle)) * factor / divisor).quantize(_LAST)
    except InvalidOperation:
        raise ValueError(f"{angle!r} is no angle") from None
