"""The pages of stations, as HTML without anything from elsewhere: one of all stations, and one of each. All names and numbers that came from
rows, files and people are escaped where they are put into a page.

A page is loaded again each minute. Its only script says how old it is by the reader's clock, so that a page that nobody writes any more
isn't taken for a new one; no other one can run.
"""

import base64
import datetime
import hashlib
import os
from html import escape
from urllib.parse import quote

import charts
import freshness
import limits
import reductions
import viewed
from outcomes import SHOWN

REFRESH = 60
# Older than this a page isn't to be relied on, in seconds.
STALE = 180
# From good to worst: what is said of a station.
STATES = ["ok", "doubtful", limits.ATTENTION, limits.ALARM, "unknown"]
SAID = {sort: said for sort, (said, _, _) in SHOWN.items()}
SCRIPT = """\
(function () {
  var box = document.getElementById("stale"), written = Number(box.getAttribute("data-written"));
  function look() {
    var old = Math.round(Date.now() / 1000 - written);
    box.hidden = old < Number(box.getAttribute("data-stale"));
    box.textContent = "This page is " + Math.round(old / 60) + " minutes old by this device's clock: nobody writes it any more, or the clock is wrong.";
  }
  look();
  setInterval(look, 5000);
})();
"""
POLICY = f"default-src 'none'; style-src 'unsafe-inline'; script-src 'sha256-{base64.b64encode(hashlib.sha256(SCRIPT.encode()).digest()).decode()}'"
STYLE = """\
:root { color-scheme: light dark; --ground: #fff; --text: #1a1a1a; --faint: #666; --line: #ddd; --none: #eee; DAY_COLOURS --sure: #14507f;
  --attention: #b26a00; --alarm: #c01818; --unknown: #555; }
@media (prefers-color-scheme: dark) { :root { --ground: #14171a; --text: #e8e8e8; --faint: #a0a0a0; --line: #33383d; --none: #24292e; NIGHT_COLOURS
  --sure: #7ab8ea; --attention: #f0a040; --alarm: #ff7b72; --unknown: #aaa; } }
body { margin: 0 auto; max-width: 72rem; padding: 0.6rem; background: var(--ground); color: var(--text); font: 16px/1.4 system-ui, sans-serif; overflow-wrap: break-word; }
h1 { font-size: 1.4rem; margin: 0.2rem 0; } h2 { font-size: 1.1rem; margin: 1.2rem 0 0.3rem; } h3 { font-size: 1rem; margin: 0.2rem 0; }
p, ul { margin: 0.2rem 0; } ul { padding-left: 1.2rem; } a { color: inherit; }
.faint { color: var(--faint); font-size: 0.85rem; }
.cards, .charts { display: grid; grid-template-columns: repeat(auto-fill, minmax(min(100%, 20rem), 1fr)); gap: 0.6rem; }
.card, figure { border: 1px solid var(--line); border-radius: 6px; padding: 0.5rem; margin: 0; min-width: 0; }
figcaption { font-size: 0.9rem; }
.state { display: inline-block; border-radius: 4px; padding: 0 0.4rem; font-size: 0.9rem; font-weight: bold; color: #fff; background: var(--unknown); }
.state.ok { background: #2c7a52; } .state.doubtful { background: #7a6400; } .state.attention { background: #9a5a00; } .state.alarm { background: #b01515; }
li.attention, td.attention, b.attention { color: var(--attention); } li.alarm, td.alarm, b.alarm { color: var(--alarm); }
#stale { background: #b01515; color: #fff; padding: 0.4rem; font-weight: bold; }
svg { display: block; width: 100%; } svg.strip { height: 1.1rem; } svg.chart { height: auto; }
svg text { font-size: 9px; fill: var(--faint); }
path.none { fill: var(--none); } PATHS
path.axis { stroke: var(--line); stroke-width: 0.6; fill: none; }
path.sure, path.doubtful { stroke: var(--sure); stroke-width: 2.2; stroke-linecap: round; fill: none; } path.doubtful { stroke: var(--warning); }
path.limit { stroke-width: 1; fill: none; } path.limit.attention { stroke: var(--attention); stroke-dasharray: 4 3; } path.limit.alarm { stroke: var(--alarm); }
.key { display: inline-block; width: 0.8rem; height: 0.8rem; border-radius: 2px; vertical-align: -1px; margin: 0 0.2rem 0 0.6rem; }
table { border-collapse: collapse; display: block; overflow-x: auto; margin: 0.3rem 0 0.6rem; } th, td { text-align: left; padding: 0.1rem 0.7rem 0.1rem 0; border-bottom: 1px solid var(--line); font-size: 0.9rem; }
"""
for place, colours in enumerate(["DAY_COLOURS", "NIGHT_COLOURS"], 1):
    STYLE = STYLE.replace(colours, " ".join(f"--{sort}: {shown[place]};" for sort, shown in SHOWN.items()))
STYLE = STYLE.replace("PATHS", "\n".join(f"path.{sort} {{ fill: var(--{sort}); }}" for sort in SHOWN))


def moment_words(moment):
    """A moment in UTC."""
    return datetime.datetime.fromtimestamp(moment, datetime.timezone.utc).strftime("%Y-%m-%d %H:%M:%S UTC")


def span_words(seconds):
    """A time in the two largest of its units."""
    units = [(86_400, "d"), (3600, "h"), (60, "min"), (1, "s")]
    seconds = max(0, int(seconds))
    for (size, unit), (next_size, next_unit) in zip(units, units[1:]):
        if seconds >= size:
            rest = seconds % size // next_size
            return f"{seconds // size} {unit}" + (f" {rest} {next_unit}" if rest else "")
    return f"{seconds} s"


def file_of(name):
    """The name of a station's page: plain letters, and no other station's."""
    plain = quote(name, safe="")
    return f"station-{plain if len(plain) <= 120 else plain[:80].rstrip('%') + '-' + hashlib.sha256(plain.encode()).hexdigest()[:20]}.html"


class View:
    """A station at a moment."""

    def __init__(self, station, now, within):
        """`within` is how many seconds without a good row are silence where no limit says it."""
        self.station, self.now, self.within = station, now, within
        self.remarks = list(self.said())
        self.state = max((level for level, _ in self.remarks), key=STATES.index, default="ok")

    def ago(self, moment):
        if moment is None:
            return "never"
        return f"{span_words(self.now - moment)} ago" if moment <= self.now + freshness.AHEAD else "after now by the clock"

    def silence(self, target, moment, default):
        """The level of the silence of a target, or of all."""
        given = [limit for limit in self.station.limits if limit.target == target and limit.seconds is not None]
        if given:
            return viewed.level_of_silence(given, moment, self.now)
        return default if moment is None or self.now - moment > self.within else None

    def said(self):
        """What is to be known of the station, each with its level."""
        station = self.station
        yield from (("unknown", fault) for fault in station.faults)
        if station.row is None:
            yield "unknown", "no row of a cycle"
            return
        if station.row - self.now > freshness.AHEAD:
            yield "unknown", f"the clock is {span_words(station.row - self.now)} before the last row: it was set back, or the row's is ahead"
        level = self.silence(limits.ALL, station.good(), limits.ALARM)
        if level:
            yield level, f"silent: the last good row was {self.ago(station.good())}"
        for target in station.measured():
            # Where all are silent that was said.
            silent = self.silence(target.number, target.good, limits.ATTENTION)
            if silent and not level:
                yield silent, f"{target.called()}: the last good row was {self.ago(target.good)}"
        for target in station.targets.values():
            yield from self.outside(target)
        yield from self.doubts()

    def outside(self, target):
        for column in self.station.shown(target):
            level = viewed.level_outside(self.station.limits_of(target.number, column), target)
            if level:
                yield level, f"{target.called()}: {self.value_words(target, column)}, outside{self.when(target, column)}"

    def doubts(self):
        """Why the last reductions are doubtful, each reason with its targets."""
        last = self.station.reduced_last().get("moment", 0)
        reasons = {}
        for target in self.station.targets.values():
            if target.reduced.get("quality") == "warning" and last - target.reduced["moment"] < self.within:
                reasons.setdefault(target.reduced["reason"] or "a warning", []).append(target.called())
        for reason, targets in reasons.items():
            said = f"{len(targets)} targets" if len(targets) > 3 else ", ".join(targets)
            yield "doubtful", f"doubtful: {reason} ({said})"

    def value_words(self, target, column):
        """The last value of a column in its unit, as it differs from its limits' reference."""
        unit, value = charts.unit_of(column)[1], self.shown(target, column)(target.last(column))
        sign = "+" if value > 0 and unit and (self.station.limits_of(target.number, column) or column in viewed.MOVED) else ""
        return f"{charts.words_of(column)} {sign}{charts.short(value)} {unit}".rstrip()

    def shown(self, target, column):
        """What shows a value of a column: as it differs from the reference, in its unit."""
        times, reference = charts.unit_of(column)[0], self.reference(target, column)
        return lambda value: viewed.apart(column, value, reference) * times

    def when(self, target, column):
        """How old the last value of a column is, where that isn't new."""
        moment = target.seen(column)
        return f" ({self.ago(moment)})" if self.now - moment > self.within else ""

    def reference(self, target, column):
        """What values of a column are shown from: the reference of a limit, if its unit is a length's or an angle's, and else of a
        coordinate the first value."""
        given = self.station.limits_of(target.number, column)
        if given:
            return viewed.bounded(given[0].reference) if charts.unit_of(column)[1] else 0.0
        return target.series[column].values[0] if column in reductions.PLACE else 0.0

    def bounds(self, target, column):
        """The limits of a column as a chart has them."""
        times, reference = charts.unit_of(column)[0], self.reference(target, column)
        for limit in self.station.limits_of(target.number, column):
            middle, tolerance = viewed.apart(column, viewed.bounded(limit.reference), reference) * times, viewed.bounded(limit.tolerance) * times
            yield limit.level or limits.ALARM, middle - tolerance, middle + tolerance


def strip_of(outcomes, now, said):
    """A strip, and what it shows in words."""
    words = ", ".join(f"{many} {SAID[sort]}" for sort, many in viewed.counts(outcomes, now).items()) or "no command"
    return charts.strip(outcomes, now - viewed.DAY, now, f"{said}, the last day: {words}"), words


def state(word):
    return f'<span class="state {word}">{word}</span>'


def remarks(view):
    found = "".join(f'<li class="{level}"><b class="{level}">{level}</b> {escape(text)}</li>' for level, text in view.remarks)
    return f"<ul>{found}</ul>" if found else ""


def ages(view):
    good = view.station.good()
    at_last = f" ({moment_words(good)})" if good is not None else ""
    return (f"<p>last good row <b>{view.ago(good)}</b><span class=\"faint\">{at_last}, last row {view.ago(view.station.row)}</span></p>")


def keys():
    """What the colours of strips are."""
    words = "".join(f'<span class="key" style="background:var(--{sort})"></span>{said}' for sort, said in SAID.items())
    return f'<p class="faint">The last day, until now:{words}</p>'


def page(title, now, body, is_top):
    """A whole page."""
    back = "" if is_top else '<p><a href="index.html">all stations</a></p>'
    return f"""<!DOCTYPE html>
<html lang="en"><head><meta charset="utf-8">
<meta http-equiv="Content-Security-Policy" content="{escape(POLICY)}">
<meta http-equiv="refresh" content="{REFRESH}"><meta name="viewport" content="width=device-width, initial-scale=1"><meta name="robots" content="noindex">
<title>{escape(title)}</title><style>
{STYLE}</style></head><body>
<p id="stale" data-written="{int(now)}" data-stale="{STALE}" hidden></p>
{back}{body}
<p class="faint">Written at <time datetime="{datetime.datetime.fromtimestamp(int(now), datetime.timezone.utc).isoformat()}">{moment_words(now)}</time>; all \
times are UTC. This page raises no alarm: geocom-alarm does.</p>
<script>{SCRIPT}</script></body></html>
"""


def top_page(views, now, faults):
    """The page of all stations, the worst first."""
    cards = []
    for view in sorted(views, key=lambda view: (-STATES.index(view.state), view.station.name)):
        outcomes = sorted(each for target in view.station.targets.values() for each in target.outcomes)
        drawn, words = strip_of(outcomes, now, view.station.name)
        name = escape(view.station.name)
        cards.append(f'<section class="card"><h3><a href="{escape(quote(file_of(view.station.name)))}">{name}</a> {state(view.state)}</h3>{ages(view)}'
                     f'{remarks(view)}{drawn}<p class="faint">{words}</p></section>')
    told = "".join(f'<p class="alarm"><b class="alarm">unknown</b> {escape(fault)}</p>' for fault in faults)
    return page("Stations", now, f'<h1>Stations</h1>{told}{keys()}<div class="cards">{"".join(cards)}</div>', True)


def station_page(view):
    station = view.station
    body = f"<h1>{escape(station.name)} {state(view.state)}</h1>{ages(view)}{remarks(view)}"
    body += f"<h2>Outcomes</h2>{keys()}{''.join(outcome_of(view, target) for target in by_number(station.targets.values()))}"
    figures = "".join(movement(view, *each) for each in by_level(view))
    if figures:
        dots = ('<p class="faint">A dot for each value<span class="key" style="background:var(--sure)"></span>sure<span class="key" style="background:var(--warning)">'
                f"</span>doubtful, over {station.days:g} days; dashed lines: attention, whole ones: alarm</p>")
        body += f'<h2>Movements</h2>{dots}<div class="charts">{figures}</div>'
    found = by_number(station.references())
    if found:
        body += f"<h2>References</h2>{reference_table(view, found)}"
        body += f'<div class="charts">{"".join(residuals(view, target, column) for target in found for column in reductions.RESIDUALS)}</div>'
    return page(station.name, view.now, body, False)


def by_number(targets):
    return sorted(targets, key=lambda target: int(target.number))


def by_level(view):
    """What is shown as a movement, each a target and a column: what is outside its limits comes first."""
    station = view.station
    found = [(target, column) for target in by_number(station.targets.values()) for column in station.shown(target)]
    return sorted(found, key=lambda each: -STATES.index(viewed.level_outside(station.limits_of(each[0].number, each[1]), each[0]) or "ok"))


def outcome_of(view, target):
    drawn, words = strip_of(target.outcomes, view.now, target.called())
    good = f", good {view.ago(target.good)}" if target.is_measured else ""
    return f'<div><b>{escape(target.called())}</b> <span class="faint">{words}{good}</span>{drawn}</div>'


def figure(view, target, column, bounds, shown, said):
    """A chart, and what it says."""
    unit = charts.unit_of(column)[1]
    chart = charts.Chart(target.series[column], view.now - view.station.days * viewed.DAY, view.now, shown, bounds, {"µrad": 20, "": 1}.get(unit, 2))
    plain = f"{target.called()}: {charts.words_of(column)}, {unit}".rstrip(", ")
    return f"<figure><figcaption>{said}</figcaption>{chart.drawn(plain)}</figure>"


def movement(view, target, column):
    """The chart of a movement with its limits."""
    bounds = list(view.bounds(target, column))
    level = viewed.level_outside(view.station.limits_of(target.number, column), target)
    unit = charts.unit_of(column)[1]
    given = ", ".join(f"{name} ±{charts.short((high - low) / 2)} {unit}".rstrip() for name, low, high in bounds)
    state_words = f'<b class="{level}">outside: {level}</b>' if level else "within" if bounds else "no limit"
    said = (f"<b>{escape(target.called())}</b> {escape(view.value_words(target, column))}{view.when(target, column)}, {state_words} "
            f'<span class="faint">{escape(given)}</span>')
    return figure(view, target, column, bounds, view.shown(target, column), said)


def reference_table(view, references):
    """The last residuals of each reference, with what a reference is said to lack."""
    rows, last = [], view.station.reduced_last()
    for target in references:
        cells = []
        for column in reductions.RESIDUALS:
            value, (times, unit) = target.last(column), charts.unit_of(column)
            cells.append("" if value is None else f"{charts.short(value * times)} {unit}")
        used = use_of(target, last)
        rows.append(f"<tr><td>{escape(target.called())}</td>{''.join(f'<td>{cell}</td>' for cell in cells)}{used}<td>{view.ago(target.reduced.get('moment'))}</td></tr>")
    deviation = last.get("orientation_deviation_rad")
    said = f"{last.get('references') or 'none'} in the last orientation" + (f", whose standard deviation is {charts.short(float(deviation) * 1e6)} µrad" if deviation else "")
    head = "<tr><th>reference</th><th>direction</th><th>distance</th><th>height</th><th></th><th>measured</th></tr>"
    return f"<p>{escape(said)}</p><table>{head}{''.join(rows)}</table>"


def use_of(target, last):
    """Whether a reference was in the last orientation."""
    if [target.reduced.get(name) for name in ("run", "cycle")] != [last.get(name) for name in ("run", "cycle")]:
        return '<td class="attention">not measured</td>'
    is_out = target.number in target.reduced.get("left_out", "").split()
    return '<td class="attention">left out</td>' if is_out else "<td>in use</td>"


def residuals(view, target, column):
    """The chart of a reference's residual, with what the site allows."""
    if column not in target.series or not target.series[column].moments:
        return ""
    times, unit = charts.unit_of(column)
    within = view.station.within if column.endswith("_rad") else view.station.within_metres
    bounds = [] if within is None else [(limits.ATTENTION, -within * times, within * times)]
    allowed = f"within ±{charts.short(within * times)} {unit}" if within is not None else ""
    words = {"reference_hz_residual_rad": "direction", "reference_distance_residual_m": "distance", "reference_height_residual_m": "height"}[column]
    said = (f"<b>{escape(target.called())}</b> residual in {words} {charts.short(target.last(column) * times)} {unit}{view.when(target, column)} "
            f'<span class="faint">{allowed}</span>')
    return figure(view, target, column, bounds, lambda value: value * times, said)


def written(folder, name, text):
    """Puts a file into the folder, whole or not at all."""
    path, new = os.path.join(folder, name), os.path.join(folder, f".{name}.new")
    with open(new, "w", encoding="utf-8") as file:
        file.write(text)
    os.replace(new, path)
