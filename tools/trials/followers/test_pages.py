"""The pages of stations: what they say of a month in which a prism creeps, a reference is hidden and the station falls silent; names that mean
something to HTML; files that grow, change and can't be read. With Chromium the pages are looked at as it shows them.
"""

import csv
import datetime
import html.parser
import os
import re
import shutil
import subprocess
import sys
import time

import pages
import pytest
import shown_month
import viewed
from growing import stamp
from programs import Run, ended, until
from records import COLUMNS, HEAD, line_of
from sinks import messages_of, tool

CHROMIUM = next(filter(None, map(shutil.which, ("chromium-headless-shell", "chromium"))), None)
NOW = "2026-11-30T22:30:00Z"


class Seen(html.parser.HTMLParser):
    """The text of a page, its elements, and its scripts."""

    def __init__(self, text):
        super().__init__()
        self.elements, self.words, self.scripts, self.attributes, self.open = [], [], [], [], []
        self.feed(text)
        assert not self.open, self.open

    def handle_starttag(self, tag, attrs):
        self.elements.append(tag)
        self.attributes += attrs
        if tag not in ("meta", "path", "br"):
            self.open.append(tag)

    def handle_startendtag(self, tag, attrs):
        self.elements.append(tag)
        self.attributes += attrs

    def handle_endtag(self, tag):
        assert self.open.pop() == tag, tag

    def handle_data(self, data):
        (self.scripts if self.open[-1:] == ["script"] else self.words if self.open[-1:] != ["style"] else []).append(data)

    def text(self):
        return " ".join(" ".join(self.words).split())


def page(folder, *words, name="station-north.html", status=0, at=NOW):
    """The page of a station, written once; what was reported has to be what is wanted."""
    found = ended(tool("page", folder / "page", "--rows", folder / "rows", "--limits", folder / "limits", "--once", "--at", at, *words), patience=120)
    assert (found.status, found.output, bool(found.messages)) == (status, b"", bool(status)), found
    return Seen((folder / "page" / name).read_text(encoding="utf-8"))


@pytest.fixture(scope="module")
def month(tmp_path_factory):
    """A folder with the files of a month."""
    folder = tmp_path_factory.mktemp("month")
    shown_month.lay(folder)
    return folder


def test_says_what_happened_in_a_month(month):
    """The creep with its level, the reference that is hidden in its outcomes, the silence with its age; what is within says so."""
    found = page(month)
    text = found.text()
    # By hand: 473 cycles of 0.016 mm are 7.57 mm; the noise of a coordinate is 0.35 mm.
    creep = re.search(r"alarm 12 pier 4: moved easting \+(\d\.\d+) mm, outside", text)
    assert creep and abs(float(creep[1]) - 7.57) < 1.2, text[:600]
    for words in ["north alarm", "last good row 6 h 29 min ago (2026-11-30 16:00:23 UTC)", "alarm silent: the last good row was 6 h 29 min ago",
                  "attention ±3 mm, alarm ±6 mm", "3 bridge 28 answered well, 8 refused, good 6 h 29 min ago", "12 pier 4 36 answered well, good",
                  "13 dam crest velocity easting", "within attention ±0.6 mm/d", "3 in the last orientation, whose standard deviation is",
                  "residual in direction", "within ±30 µrad", "within ±3 mm", "Written at 2026-11-30 22:30:00 UTC"]:
        assert words in text, (words, text)
    assert text.count("outside: alarm") == 1 and "outside: attention" not in text
    # A chart for each limit of a target, and three for each reference; what is outside comes first; a reference has no movement.
    assert found.elements.count("figure") == 5 + 9 and text.index("outside: alarm") < text.index("11 pier 3 moved easting")
    assert text.index("Movements") < text.index("References") and "1 rock north moved" not in text
    top = page(month, name="index.html")
    assert ("href", "station-north.html") in top.attributes and "208 answered well, 8 refused" in top.text() and creep[0] in top.text()


@pytest.mark.parametrize("at, state, wanted, unwanted", [
    ("2026-11-09T12:00:30Z", "ok", [], ["silent", "outside", "doubtful:"]),
    ("2026-11-16T12:00:30Z", "doubtful", ["doubtful: reference 3 not measured (5 targets)", "attention 3 bridge: the last good row was 1 d 14 h ago"], ["silent:", "outside"]),
    ("2026-11-23T12:00:30Z", "attention", ["attention 12 pier 4: moved easting +"], ["silent", "alarm 12 pier 4: moved", "doubtful:"]),
    ("2026-11-30T18:00:30Z", "alarm", ["attention silent: the last good row was 2 h ago", "alarm 12 pier 4"], []),
    ("2026-10-01T00:00:00Z", "unknown", ["the clock is 60 d 16 h before the last row", "last good row after now by the clock", "3 bridge no command, good after now"], []),
])
def test_says_what_a_moment_says(month, folder, at, state, wanted, unwanted):
    """The pages of other days of it, each from the rows until then."""
    cut(month, folder, at)
    text = page(folder, at=at).text()
    assert f"north {'attention' if state == 'doubtful' and 'attention' in ' '.join(wanted) else state} " in text, text[:300]
    assert all(words in text for words in wanted), text[:600]
    assert not any(words in text for words in unwanted), text[:600]


def cut(month, folder, at):
    """The month's files until a moment; all of them where it is before them."""
    shutil.copytree(month / "limits", folder / "limits")
    (folder / "rows/reduced").mkdir(parents=True)
    for name in "north.csv", "reduced/north.csv":
        lines = (month / "rows" / name).read_text(encoding="ascii").splitlines(keepends=True)
        kept = [line for line in lines[1:] if line.split(",")[2] <= at] or lines[1:]
        (folder / "rows" / name).write_text("".join([lines[0], *kept]), encoding="ascii")


BAD = "</title><script>alert(1)</script><b x=\"y' onload=z"


def test_escapes_names(folder):
    """Names of targets, of files and of what can't be read are text, whatever they have; no page has a script but its own."""
    name = BAD.replace("/", "|") + "\n\udcff"
    (folder / "rows").mkdir()
    (folder / "limits").mkdir()
    quoted = '"' + BAD.replace('"', '""') + '"'
    (folder / f"rows/{name}.csv").write_bytes(HEAD + b"".join(line(at, 7, name=quoted) for at in (600, 300, 0)))
    (folder / "limits" / f"{name}.limits").write_text(f"{BAD}\n", encoding="ascii")
    found = ended(tool("page", folder / "page", "--rows", folder / "rows", "--limits", folder / "limits", "--once"), patience=60)
    assert found.status == 1 and "its columns aren't" in found.messages
    written = sorted(each for each in os.listdir(folder / "page"))
    assert len(written) == 2 and all(re.fullmatch(r"[A-Za-z0-9._%~-]+", each) for each in written), written
    for each in written:
        text = (folder / "page" / each).read_text(encoding="utf-8")
        seen = Seen(text)
        assert seen.scripts == [pages.SCRIPT] and "b" in seen.elements and not any(name == "onload" for name, _ in seen.attributes)
        assert BAD.replace("/", "|") in seen.text() and "\\x0a" in seen.text() and text.count("<script") == 1
        if each.startswith("station"):
            assert BAD in seen.text()
            shutil.copy(folder / "page" / each, folder / "shown.html")
    if CHROMIUM:
        dom = shown(folder / "shown.html")
        assert dom.count("<script") == 1 and "&lt;script&gt;alert(1)" in dom


def line(ago, target, how="answered,,0,0,\"2,1.5,50\",ok", cycle=None, place=0, name="", attempt=1):
    """A row of so many seconds ago. `how` are its fields from the outcome on, and `name` is quoted where it has to be."""
    moment = stamp(datetime.datetime.now(datetime.timezone.utc) - datetime.timedelta(seconds=ago)).decode()
    cycle = 10_000_000 - ago if cycle is None else cycle
    name, *ended = next(csv.reader([f"{name},{how}"]))
    return line_of({"run": "2026-10-31T23:59:50.000Z", "sent": moment, "time": moment, "cycle": cycle, "step": place, "target": target, "name": name,
                    "procedure": 2108, **dict(zip(COLUMNS[COLUMNS.index("outcome"):], ended)), "attempt": attempt})


def shown(path, *words):
    """A page as Chromium has it in the end."""
    words = [CHROMIUM, "--headless", "--no-sandbox", "--disable-gpu", "--virtual-time-budget=2000", *words, "--dump-dom", f"file://{path}"]
    return subprocess.run(words, capture_output=True, timeout=120, check=True).stdout.decode()


def needs_chromium():
    if not CHROMIUM:
        pytest.skip("no Chromium: Debian's package chromium-headless-shell or chromium")


def test_a_browser_shows_it(month, folder, note):
    """Chromium loads it with the page's own policy: the text is there, nothing is refused, and a picture for a telephone isn't blank."""
    needs_chromium()
    page(month)
    words = [CHROMIUM, "--headless", "--no-sandbox", "--disable-gpu", "--enable-logging=stderr", "--v=0", "--hide-scrollbars", "--window-size=360,1500",
             f"--screenshot={folder / 'phone.png'}", f"file://{month / 'page/station-north.html'}"]
    told = subprocess.run(words, capture_output=True, timeout=120, check=True).stderr.decode()
    assert "Content Security Policy" not in told and "CONSOLE" not in told, told
    assert (folder / "phone.png").stat().st_size > 60_000
    dom = shown(month / "page/station-north.html")
    assert "outside: alarm" in dom and dom.count("<svg") == 6 + 5 + 9
    note(f"a picture of {(folder / 'phone.png').stat().st_size >> 10} kB")


@pytest.mark.parametrize("age, is_stale", [(0, False), (100, False), (400, True), (-400, False)])
def test_a_page_that_nobody_writes(month, folder, age, is_stale):
    """It says so by itself, in a browser."""
    needs_chromium()
    at = datetime.datetime.now(datetime.timezone.utc) - datetime.timedelta(seconds=age)
    shutil.copytree(month / "rows", folder / "rows")
    page(folder, at=at.isoformat())
    dom = shown(folder / "page/station-north.html")
    box = re.search(r'<p id="stale"([^>]*)>([^<]*)</p>', dom)
    assert box and ("hidden" not in box[1]) == is_stale and ("nobody writes it any more" in box[2]), box


def text_of(station, now):
    station.look(now)
    return pages.station_page(pages.View(station, now, 3600.0))


def station_of(folder):
    return viewed.Station("north", folder / "rows/north.csv", folder / "rows/reduced/north.csv", folder / "limits/north.limits", folder / "limits/north.site", 31.0)


def test_grows_as_the_files_do(month, folder):
    """Looks at files that grow by pieces, half rows among them, and at others that took their places, say what a first look says."""
    (folder / "rows/reduced").mkdir(parents=True)
    shutil.copytree(month / "limits", folder / "limits")
    whole = {name: (month / "rows" / name).read_bytes() for name in ("north.csv", "reduced/north.csv")}
    now, station = shown_month.NOW * 3600 + shown_month.BEGIN.timestamp(), station_of(folder)
    for step in 1, 40, 41, 300, 301, 999, 1000:
        for name, data in whole.items():
            if (step, name) != (1, "reduced/north.csv"):
                with open(folder / "rows" / name, "ab") as file:
                    file.write(data[file.tell() : len(data) * step // 1000])
        assert text_of(station, now) == text_of(station_of(folder), now), step
    # A copy that goes on, and one that is shorter.
    for share in 1000, 700:
        for name, data in whole.items():
            (folder / "new").write_bytes(data[: len(data) * share // 1000])
            os.replace(folder / "new", folder / "rows" / name)
        assert text_of(station, now) == text_of(station_of(folder), now), share
    os.truncate(folder / "rows/north.csv", 500_000)
    assert text_of(station, now) == text_of(station_of(folder), now)


def counts(station, number):
    return viewed.counts(station.targets[number].outcomes, time.time())


def test_the_last_attempt_counts(folder):
    """Of several attempts of a command in a cycle the last one is in the strip, whether they come at once or later."""
    for each in "rows", "limits":
        (folder / each).mkdir()
    refused = "answered,,0,1285,,refused"
    (folder / "rows/north.csv").write_bytes(HEAD + line(900, 7, cycle=1) + line(600, 7, refused, cycle=2) + line(599, 8, refused, cycle=2, place=1))
    station, now = station_of(folder), time.time()
    assert "2 refused" not in text_of(station, now) and counts(station, "7") == {"ok": 1, "refused": 1}
    with open(folder / "rows/north.csv", "ab") as file:
        file.write(line(598, 7, cycle=2, attempt=2) + line(597, 8, refused, cycle=2, place=1, attempt=2) + line(0, 8, cycle=0))
    text_of(station, now)
    assert counts(station, "7") == {"ok": 2} and counts(station, "8") == {"refused": 1}


def test_outcomes_of_a_day(folder):
    """Each outcome is in its sort; what is older than a day isn't there, and a target that wasn't good in it still has its age."""
    for each in "rows", "limits":
        (folder / each).mkdir()
    bad = {"late": 3, "lost": 2, "unreadable": 1, "off_target": 1, "skipped": 4, "missed": 2}
    rows, cycle = [line(200_000, 7, cycle=1), line(190_000, 7, "lost,,,,,", cycle=2)], 3
    for outcome, many in bad.items():
        for _ in range(many):
            rows.append(line(80_000 - 1000 * cycle, 7, f"{outcome},,,,,", cycle=cycle))
            cycle += 1
    rows += [line(40_000, 7, "answered,,0,1285,,refused", cycle=cycle), line(39_000, 7, 'answered,,0,1283,"2,1.5,50",warning', cycle=cycle + 1)]
    first, apart = 'answered,,0,0,"2,1.5,50",unconfirmed', 'disagree,,0,0,"2,1.5,51",'
    rows += [line(38_000, 7, first, cycle=cycle + 2), line(37_000, 7, apart, cycle=cycle + 2, attempt=2), line(36_000, 7, first, cycle=cycle + 3)]
    rows += [line(35_000, 7, 'unexpected,,0,0,"2,1.5,50",', cycle=cycle + 4)]
    (folder / "rows/north.csv").write_bytes(HEAD + b"".join(rows))
    station = station_of(folder)
    text = Seen(text_of(station, time.time())).text()
    assert counts(station, "7") == {"warning": 1, "unconfirmed": 1, "disagree": 1, "unexpected": 1, "refused": 1, "unanswered": 7, "unsent": 6}, counts(station, "7")
    said = "1 with a warning, 1 unconfirmed, 1 in disagreement (disagree), 1 not as expected (unexpected), 1 refused, 7 not answered in time, 6 not sent"
    assert f"7 {said}, good 10 h 50 min ago" in text, text


def test_looks_back_for_the_last_good_row(folder):
    """A target that was refused for three days has its age, and one that never was good in the days that are shown says so."""
    for each in "rows", "limits":
        (folder / each).mkdir()
    refused, rows = "answered,,0,1285,,refused", [line(50 * 86_400, 8, cycle=1)]
    rows += [line(40 * 86_400, 8, refused, cycle=2), line(3 * 86_400, 7, cycle=3)]
    rows += [line(3 * 86_400 - 3600 * hour, target, refused, cycle=3 + hour, place=target) for hour in range(1, 72) for target in (7, 8)]
    (folder / "rows/north.csv").write_bytes(HEAD + b"".join(rows))
    text = Seen(text_of(station_of(folder), time.time())).text()
    assert "7 23 refused, good 3 d ago" in text and "8 23 refused, good never" in text and "silent: the last good row was 3 d ago" in text, text


def test_what_cant_be_read(month, folder):
    """Each has one line, the others go on; the line comes once, also where it lasts."""
    shutil.copytree(month / "rows", folder / "rows")
    shutil.copytree(month / "limits", folder / "limits")
    rows = folder / "rows"
    (rows / "south.csv").write_bytes(b"a,b\n1,2\n")
    (rows / "torn.csv").write_bytes(HEAD + line(100, 7) + b"no row\n" + line(0, 7))
    (rows / "half.csv").write_bytes(HEAD[:30])
    (rows / "empty.csv").write_bytes(HEAD)
    (rows / "pipe").mkdir()
    os.rename(rows / "pipe", rows / "pipe.csv")
    (folder / "limits/empty.limits").write_text("nothing\n", encoding="ascii")
    (folder / "limits/half.site").write_text("nowhere 1 2\n", encoding="ascii")
    (folder / "limits/torn.limits").write_bytes(b"\xff\xfe")
    found = ended(tool("page", folder / "page", "--rows", rows, "--limits", folder / "limits", "--once", "--at", NOW), patience=60)
    lines = found.messages.splitlines()
    wanted = ["empty.limits: line 1: its columns aren't", "half.site: line 1: no line begins with 'nowhere'", "pipe.csv: Is a directory",
              "south.csv has no column", "torn.limits: it is no text", f"torn.csv: a line near its end is no row: it has 1 fields for {len(COLUMNS)} columns"]
    assert found.status == 1 and len(lines) == len(wanted), lines
    assert all(any(each in told for told in lines) for each in wanted), lines
    top = Seen((folder / "page/index.html").read_text(encoding="utf-8")).text()
    assert all(each in top for each in wanted) and "12 pier 4: moved easting" in top and top.count(" unknown ") >= 5
    with Run([sys.executable, *tool("page", folder / "page", "--rows", rows, "--limits", folder / "limits", "--every", "1")]) as run:
        before = (folder / "page/index.html").stat().st_mtime_ns
        until(lambda: (folder / "page/index.html").stat().st_mtime_ns > before + 2_500_000_000, "it doesn't go on", 30)
        assert not run.ends_within(0.1)
        run.terminate()


@pytest.mark.parametrize("words, why", [
    (["--every", "0"], "invalid number from 1 to 86400 value: '0'"), (["--days", "x"], "invalid number from 1 to 400 value: 'x'"),
    (["--within", "nan"], "invalid number"), (["--once", "--at", "yesterday"], "invalid moment value: 'yesterday'"),
    (["--once", "--at", "2026-11-30T22:30:00"], "invalid moment"), (["--at", NOW], "--at wants --once"), (["--other"], "unrecognized"),
])
def test_misuse(folder, words, why):
    found = ended(tool("page", folder / "page", "--rows", folder, *words), patience=60)
    assert found.status == 2 and why in found.messages and "Traceback" not in found.messages, found.messages


def test_refuses_folders(folder):
    """No file of rows, and a folder that can't be written: a line each, and the status."""
    assert messages_of(tool("page", folder / "page", "--rows", folder / "none", "--once"), 1) == f"page: {folder}/none has no file NAME.csv or NAME.jsonl\n"
    assert "has no file NAME.csv" in Seen((folder / "page/index.html").read_text(encoding="utf-8")).text()
    (folder / "file").write_text("", encoding="ascii")
    (folder / "north.csv").write_bytes(HEAD + line(0, 7))
    assert messages_of(tool("page", folder / "file", "--rows", folder, "--once"), 1) == f"page: the folder {folder}/file can't be written: File exists\n"


def test_leaves_stations_out(month):
    assert page(month, "--except", "south", name="index.html").text().count("north alarm") == 1
    found = ended(tool("page", month / "other", "--rows", month / "rows", "--once", "--except", "north", "south"), patience=60)
    assert found.status == 1 and "has no file" in found.messages


def test_many_stations(month, folder, note):
    """Twenty stations of a month: what the first writing takes, and a later one."""
    for each in "rows/reduced", "limits":
        (folder / each).mkdir(parents=True)
    for number in range(20):
        for name in "rows/north.csv", "rows/reduced/north.csv", "limits/north.limits", "limits/north.site":
            os.symlink(month / name, folder / name.replace("north", f"s{number}"))
    now = shown_month.NOW * 3600 + shown_month.BEGIN.timestamp()
    stations = [viewed.Station(f"s{number}", folder / f"rows/s{number}.csv", folder / f"rows/reduced/s{number}.csv", folder / f"limits/s{number}.limits",
                               folder / f"limits/s{number}.site", 31.0) for number in range(20)]
    took = []
    for _ in range(2):
        begun = time.process_time()
        views = []
        for station in stations:
            station.look(now)
            views.append(pages.View(station, now, 3600.0))
            pages.station_page(views[-1])
        top = pages.top_page(views, now, [])
        took.append(time.process_time() - begun)
    assert len(top) < 1_000_000
    note(f"{took[0]:.1f} s of a processor at first, {took[1]:.1f} s later; the page of all has {len(top) >> 10} kB")


def test_limits_that_change(month, folder):
    """New limits are shown at the next look, also of columns that none named before; limits that can't be read leave none."""
    for each in "rows", "limits":
        shutil.copytree(month / each, folder / each)
    now, station, path = shown_month.NOW * 3600 + shown_month.BEGIN.timestamp(), station_of(folder), folder / "limits/north.limits"
    text_of(station, now)
    head = shown_month.LIMITS.splitlines()[0]
    path.write_text(f"{head}\n13,moved_horizontal_m,0,0.0001,1,1,attention,\n13,hz_rad,6.28,0.00001,1,1,alarm,\n", encoding="ascii")
    text = text_of(station, now)
    assert text == text_of(station_of(folder), now)
    assert "13 dam crest moved horizontal" in Seen(text).text() and "13 dam crest hz " in Seen(text).text()
    path.write_text("none\n", encoding="ascii")
    assert "unknown" in Seen(text_of(station, now)).text() and "north.limits: line 1" in station.faults[0]


def test_what_isnt_new_says_so(month, folder):
    """While a reference is hidden its chart and its line in the table say how old its last values are, and those of others say nothing."""
    cut(month, folder, "2026-11-16T12:00:30Z")
    text = page(folder, at="2026-11-16T12:00:30Z").text()
    assert re.search(r"3 bridge residual in direction −?[0-9.]+ µrad \(1 d 14 h ago\) within ±30 µrad", text), text
    assert re.search(r"1 rock north residual in direction −?[0-9.]+ µrad within ±30 µrad", text)
    assert re.search(r"3 bridge( −?[0-9.]+ (µrad|mm)){3} not measured 1 d 14 h ago", text) and "2 in the last orientation" in text
    assert text.count("in use") == 2


@pytest.mark.parametrize("values, limit", [
    ("1e999,-1e999,1e999", "7,distance_m,0,1,1,1"), ("2,1.5,9999999999999", "7,distance_m,1e999,1e999,1,1"), ("2,1.5,-0", "7,distance_m,-1e300,0,1,1"),
    ("2,1.5,50", "7,distance_m,50,0,1,1"), ("x,y,z", "7,distance_m,50,0,1,1"), (",,", "7,hz_rad,0,1e999,1,1"),
])
def test_values_that_have_no_place(folder, values, limit):
    """Numbers that are far from anything that is measured, and texts: a page is written."""
    for each in "rows", "limits":
        (folder / each).mkdir()
    how = f'answered,,0,0,"{values}",ok'
    (folder / "rows/north.csv").write_bytes(HEAD + line(900, 7, how) + line(100, 7) + line(0, 7, how))
    (folder / "limits/north.limits").write_text(f"target,column,reference,tolerance,outside,of\n{limit}\n", encoding="ascii")
    text = text_of(station_of(folder), time.time())
    assert Seen(text).text().startswith("north all stations north")
    assert not any("n" in each for each in re.findall(r' (?:d|x|y)="([^"]*)"', text)), text


@pytest.mark.parametrize("value, table, wanted", [
    (3.0, "attention,2 alarm,5", "attention"), (5.5, "attention,2 alarm,5", "alarm"), (-2.001, "attention,2 alarm,5", "attention"), (1.9, "attention,2 alarm,5", None),
    (5.5, ",5", "alarm"), (5.0, ",5", None),
])
def test_levels_by_hand(value, table, wanted):
    """What a value in millimetres is outside of."""
    lines = [f"7,moved_easting_m,0,{int(millimetres) / 1000},1,1,{level}" for level, millimetres in (each.split(",") for each in table.split())]
    given = viewed.limits.limits_of("target,column,reference,tolerance,outside,of,level\n" + "\n".join(lines))
    target = viewed.Target("7", series={"moved_easting_m": viewed.Series([1.0], [value / 1000], [True])})
    assert viewed.level_outside(given, target) == wanted


def test_angles_are_compared_on_the_circle():
    given = viewed.limits.limits_of("target,column,reference,tolerance,outside,of\n7,hz_rad,0.00001,0.00002,1,1\n")
    for value, is_outside in (6.28318, False), (6.28317, True), (0.00004, True), (0.00002, False):
        target = viewed.Target("7", series={"hz_rad": viewed.Series([1.0], [value], [True])})
        assert (viewed.level_outside(given, target) is not None) == is_outside


@pytest.mark.parametrize("seconds, words", [(0, "0 s"), (59.9, "59 s"), (60, "1 min"), (61, "1 min 1 s"), (3600, "1 h"), (11_520, "3 h 12 min"), (90_000, "1 d 1 h"), (-5, "0 s")])
def test_spans(seconds, words):
    assert pages.span_words(seconds) == words
