"""The return codes and the communication codes, with the manual's names.

Written by `library/generate.py` of the tables of `docs/PROTOCOL.md`.
"""

from __future__ import annotations

from .values import OpenEnum


class RC(OpenEnum):
    """A return code or a communication code of `docs/PROTOCOL.md`; others are `UNKNOWN_N`.

    >>> RC(1283).is_warning, RC(1285).text
    (True, 'the angles are valid, and there is no distance')
    """

    GRC_OK = 0
    GRC_IVPARAM = 2
    GRC_ABORT = 8
    GRC_SYSBUSY = 13
    GRC_LOW_POWER = 16
    GRC_BATT_EMPTY = 18
    GRC_OUT_OF_TEMP = 21
    GRC_INSTRUMENT_TILT = 22
    GRC_NOTOK = 26
    GRC_NA = 27
    GRC_TMC_NO_FULL_CORRECTION = 1283
    GRC_TMC_ACCURACY_GUARANTEE = 1284
    GRC_TMC_ANGLE_OK = 1285
    GRC_TMC_ANGLE_NO_FULL_CORRECTION = 1288
    GRC_TMC_ANGLE_NO_ACC_GUARANTY = 1289
    GRC_TMC_ANGLE_ERROR = 1290
    GRC_TMC_DIST_PPM = 1291
    GRC_TMC_DIST_ERROR = 1292
    GRC_TMC_BUSY = 1293
    GRC_TMC_SIGNAL_ERROR = 1294
    GRC_COM_TIMEDOUT = 3077
    GRC_COM_CANT_DECODE_REQ = 3080
    GRC_COM_PROC_UNAVAIL = 3081
    GRC_COM_OVERRUN = 3100
    GRC_COM_SRVR_RX_CHECKSUM_ERROR = 3101
    GRC_COM_CLNT_RX_CHECKSUM_ERROR = 3102
    GRC_COM_PORT_NOT_AVAILABLE = 3103
    GRC_COM_PORT_NOT_OPEN = 3104
    GRC_COM_NO_PARTNER = 3105
    GRC_COM_ERO_NOT_STARTED = 3106
    GRC_COM_CONS_REQ = 3107
    GRC_COM_SRVR_IS_SLEEPING = 3108
    GRC_COM_SRVR_IS_OFF = 3109
    GRC_AUT_TIMEOUT = 8704
    GRC_AUT_DETENT_ERROR = 8705
    GRC_AUT_ANGLE_ERROR = 8706
    GRC_AUT_MOTOR_ERROR = 8707
    GRC_AUT_INCACC = 8708
    GRC_AUT_DEV_ERROR = 8709
    GRC_AUT_NO_TARGET = 8710
    GRC_AUT_MULTIPLE_TARGETS = 8711
    GRC_AUT_BAD_ENVIRONMENT = 8712
    GRC_AUT_DETECTOR_ERROR = 8713
    GRC_AUT_NOT_ENABLED = 8714
    GRC_AUT_CALACC = 8715
    GRC_AUT_ACCURACY = 8716

    @property
    def text(self) -> str:
        """What it says, in a few words."""
        return _TEXTS.get(int(self), "see the instrument's manual")

    @property
    def is_warning(self) -> bool:
        """Whether values may come with it, on many instruments: see yours."""
        return int(self) in _WARNINGS


_WARNINGS = {1283, 1284, 1285, 1288, 1289}
_TEXTS = {
    0: "done",
    2: "a parameter isn't allowed",
    8: "the function was aborted",
    13: "the instrument is busy",
    16: "the battery is low",
    18: "the battery is nearly empty, and the instrument goes off soon",
    21: "it is too hot or too cold",
    22: "the instrument is tilted out of the range of its compensator",
    26: "the request wasn't carried out",
    27: "not available: a licence is missing, such as that of a robotic instrument",
    1283: "measured, without all corrections: the compensator was out of its range or off",
    1284: "measured, and the accuracy can't be guaranteed",
    1285: "the angles are valid, and there is no distance",
    1288: "the angles alone, without all corrections",
    1289: "the angles alone, and their accuracy can't be guaranteed",
    1290: "no angles",
    1291: "the distance meter's corrections are set wrongly",
    1292: "no distance was measured, for lack of a target for example",
    1293: "busy: nothing was measured",
    1294: "no signal comes back",
    3077: "the communication took too long",
    3080: "the request can't be read",
    3081: "the instrument has no such procedure",
    3100: "bytes were lost",
    3101: "a checksum is wrong, of a request or of a reply",
    3102: "a checksum is wrong, of a request or of a reply",
    3103: "the port isn't there, or isn't open",
    3104: "the port isn't there, or isn't open",
    3105: "nobody is at the other end",
    3106: "what was asked hasn't begun",
    3107: "too many requests in a row",
    3108: "the instrument sleeps, or is off",
    3109: "the instrument sleeps, or is off",
    8704: "the position wasn't reached in time",
    8705: "the position can't be reached: something is in the way",
    8706: "no angles while it turned",
    8707: "a motor failed",
    8708: "the position wasn't reached exactly",
    8709: "the deviation from the target couldn't be measured",
    8710: "no target was found",
    8711: "several targets were found",
    8712: "the surroundings don't allow it, such as rain or a low sun",
    8713: "the target recognition failed",
    8714: "the target recognition isn't switched on",
    8715: "its calibration failed",
    8716: "the target wasn't aimed at exactly",
}
