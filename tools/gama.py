"""A cycle as a network that GNU Gama's `gama-local` adjusts. The form is that of Gama's manual as far as it is remembered: no Gama has read it.

Angles are gons there, standard deviations of angles tenths of milligons, those of distances millimetres; x is the northing, y the
easting, and directions go clockwise. Distances and zenith angles are those of a flat earth: corrected for the air, refraction and
curvature. Heights are those of the instrument's axis and of the prisms.
"""

from decimal import Decimal
from xml.sax.saxutils import escape

import orienting
from angles import PI, bearing, on_circle

GON = 200 / PI
HEAD = """<?xml version="1.0" ?>
<gama-local xmlns="http://www.gnu.org/software/gama/gama-local">
<network axes-xy="ne" angles="left-handed">
<description>{}</description>
<parameters sigma-apr="1" conf-pr="0.95" tol-abs="1000" sigma-act="apriori" />
<points-observations direction-stdev="5" zenith-angle-stdev="5" distance-stdev="1 1.5 1">
"""
END = """</points-observations>
</network>
</gama-local>
"""


def number(decimal, places):
    return format(round(decimal, places), "f")


def point(name, place, known):
    """A point: its easting, northing and height, of which these are fixed, and the others are to be adjusted."""
    easting, northing, height = place
    found = {"x": northing, "y": easting, "z": height}
    words = [f'id="{name}"', *(f'{axis}="{number(value, 6)}"' for axis, value in found.items() if value is not None)]
    words += [f'fix="{known}"'] * bool(known) + [f'adj="{"".join(axis for axis in "xyz" if axis not in known)}"'] * (known != "xyz")
    return f"<point {' '.join(words)} />\n"


def observations(site, target, orientation):
    """The lines of what was measured to a target."""
    found = [f'<direction to="{target.number}" val="{number(on_circle(target.hz) * GON, 8)}" />']
    measured = orienting.along_and_up(site, target, orientation.factor, orientation.refraction)
    if measured:
        along, up = measured
        found.append(f'<s-distance to="{target.number}" val="{number((along * along + up * up).sqrt(), 6)}" />')
        # (the bearing of a point that is so far up in place of north is its angle from the zenith)
        found.append(f'<z-angle to="{target.number}" val="{number(bearing(along, up) * GON, 8)}" />')
    return [f"  {line}\n" for line in found]


def network(site, targets, orientation, place_of, said, is_free):
    """The text of a network: the references are fixed, and the instrument where it isn't free. `place_of` gives where a target is."""
    easting, northing, height = site.station
    text = HEAD.format(escape(said)) + point("station", (easting, northing, height + site.height_of_instrument), "" if is_free else "xyz")
    measured = [target for target in targets if target.is_measured()]
    for target in measured:
        reflector, known = site.reflectors.get(target.number, Decimal(0)), site.references.get(target.number)
        if known:
            up = known[2] + reflector if len(known) == 3 else None
            text += point(target.number, (*known[:2], up), "xyz" if up is not None else "xy")
        else:
            *found, up = place_of(target)
            text += point(target.number, (*found, None if up is None else up + reflector), "")
    lines = [line for target in measured for line in observations(site, target, orientation)]
    return f'{text}<obs from="station">\n{"".join(lines)}</obs>\n{END}'
