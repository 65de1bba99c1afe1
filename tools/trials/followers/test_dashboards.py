"""The dashboard for Grafana: each of its queries, over the tables of PostgreSQL, finds what the page of the same rows shows. Grafana's macros and
variables are filled as its manual has them; no Grafana is started.
"""

import json
import re

import pytest
import reductions
import shown_month
import viewed
from sinks import TOOLS, messages_of, tool

DASHBOARD = json.loads((TOOLS.parent / "packaging/tools/grafana.json").read_text(encoding="utf-8"))
NOW = shown_month.BEGIN.timestamp() + 3600 * shown_month.NOW
# A name that means something to SQL.
SOURCE = "north's 'site"


def quoted(*texts):
    """`sqlstring` of a variable."""
    return ",".join("'" + text.replace("'", "''") + "'" for text in texts)


def query(title, now=NOW, days=31, column="moved_easting_m"):
    """The query of a panel, as Grafana hands it over."""
    panel, = [each for each in DASHBOARD["panels"] if each["title"].removesuffix(": ${column}") == title]
    text = panel["targets"][0]["rawSql"]
    for name, value in {"rows": quoted(f"{SOURCE}/north.csv"), "reduced": quoted(f"{SOURCE}/reduced/north.csv"), "column": quoted(column)}.items():
        text = text.replace(f"${{{name}:sqlstring}}", value)
    text = text.replace("$__timeFilter(time)", f"time BETWEEN to_timestamp({now - days * 86400}) AND to_timestamp({now})")
    text = re.sub(r"\$__timeGroup\(time, '15m'\)", "floor(extract(epoch FROM time) / 900) * 900", text).replace("now()", f"to_timestamp({now})")
    assert "$" not in text, text
    return text.replace("%", "%%")


@pytest.fixture(scope="module")
def month(tmp_path_factory, servers):
    """A month's rows and reductions in the database."""
    folder = tmp_path_factory.mktemp("month")
    shown_month.lay(folder, names={12: "pier 4's \\\\ 100%"})
    messages_of(tool("to-postgres", folder / "rows", servers.where(), "--as", SOURCE, "--once"))
    messages_of(tool("to-postgres", folder / "rows/reduced", servers.where(), "--as", f"{SOURCE}/reduced", "--once"))
    return folder


def station_of(folder, now=NOW):
    files = [folder / each for each in ("rows/north.csv", "rows/reduced/north.csv", "limits/north.limits", "limits/north.site")]
    station = viewed.Station("north", *files, 31.0)
    station.look(now)
    return station


def test_ages(month, servers):
    station = station_of(month)
    (source, _, age), = servers.ask(query("Age of the last good row"))
    assert source == f"{SOURCE}/north.csv" and abs(float(age) - (NOW - station.good())) < 0.01
    found = {str(target): (name, float(age)) for _, target, name, _, age in servers.ask(query("Age of the last good row of each target"))}
    assert found.keys() == station.targets.keys()
    assert all(name == station.targets[number].name and abs(age - (NOW - station.targets[number].good)) < 0.01 for number, (name, age) in found.items())


def test_outcomes(month, servers):
    """Of the last day; as a table, and in parts of a quarter of an hour."""
    station = station_of(month)
    found = {}
    for target, _, sort, many in servers.ask(query("Outcomes of the last day")):
        found.setdefault(str(target), {})[sort] = many
    wanted = {number: viewed.counts(target.outcomes, NOW) for number, target in station.targets.items()}
    assert found == wanted and found["3"] == {"ok": 28, "refused": 8}
    parts = {}
    for begin, sort, many in servers.ask(query("Outcomes", days=1)):
        assert float(begin) % 900 == 0
        parts[sort] = parts.get(sort, 0) + many
    assert parts == {"ok": 208, "refused": 8}


def expect_series(station, rows, column, times):
    """The rows are the values of all targets in a column."""
    found = {}
    for moment, metric, value in rows:
        found.setdefault(metric, []).append((moment.timestamp(), float(value)))
    wanted = {}
    for target in station.targets.values():
        series = target.series.get(column)
        if series and series.moments:
            wanted[target.called()] = [(moment, value * times) for moment, value in zip(series.moments, series.values)]
    assert found.keys() == wanted.keys()
    for metric, series in wanted.items():
        assert [moment for moment, _ in found[metric]] == pytest.approx([moment for moment, _ in series])
        assert [value for _, value in found[metric]] == pytest.approx([value for _, value in series])
    return found


def test_movements_and_residuals(month, servers):
    station = station_of(month)
    found = expect_series(station, servers.ask(query("Movements")), "moved_easting_m", 1000)
    assert found["12 pier 4's \\\\ 100%"][-1][1] > 6
    expect_series(station, servers.ask(query("Residuals of references: direction")), reductions.RESIDUALS[0], 1e6)
    expect_series(station, servers.ask(query("Residuals of references: distance")), reductions.RESIDUALS[1], 1000)
    # Each column that can be chosen is one of reductions.
    chosen, = [each for each in DASHBOARD["templating"]["list"] if each["name"] == "column"]
    names = chosen["query"].split(",")
    assert set(names) <= set(reductions.NAMES) and [each["value"] for each in chosen["options"]] == names
    assert len(servers.ask(query("Movements", column="velocity_easting_m_per_day"))) > 1000
    assert not servers.ask(query("Movements", column="' OR true --"))


def test_doubts(month, servers):
    """While a reference is hidden each target's last row says so; the page says it in one line."""
    assert not servers.ask(query("Doubtful now"))
    now = shown_month.BEGIN.timestamp() + 3600 * 380
    rows = servers.ask(query("Doubtful now", now))
    assert {(target, quality, reason) for _, _, target, _, quality, reason in rows} == {
        (number, "warning", "reference 3 not measured") for number in (1, 2, 11, 12, 13)}


def test_variables(month, servers):
    """The sources that can be chosen: those of rows, and those of reductions."""
    for name, wanted in [("rows", [f"{SOURCE}/north.csv"]), ("reduced", [f"{SOURCE}/reduced/north.csv"])]:
        variable, = [each for each in DASHBOARD["templating"]["list"] if each["name"] == name]
        found = [source for source, in servers.ask(variable["query"].replace("%", "%%"))]
        assert [source for source in found if source.startswith(SOURCE)] == wanted


def test_is_a_dashboard():
    """Each panel has its query, its place and a datasource that is chosen; names are escaped where they are put into SQL."""
    ids = [panel["id"] for panel in DASHBOARD["panels"]]
    assert len(set(ids)) == len(ids) == 8 and DASHBOARD["refresh"] == "1m"
    for panel in DASHBOARD["panels"]:
        assert panel["datasource"]["uid"] == "${datasource}" and panel["gridPos"]["w"] and panel["targets"][0]["rawQuery"]
        text = panel["targets"][0]["rawSql"]
        assert set(re.findall(r"\$\{(\w+)\}", text)) == set() and set(re.findall(r"\$\{\w+:(\w+)\}", text)) == {"sqlstring"}
