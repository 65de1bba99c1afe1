"""The text of a bad line, and what a seed draws: no program is wanted."""

from collections import Counter

import pytest

from line_alter import altered, changes_of
from line_draws import GOLDEN, draw, mixed
from line_text import Faulty, lines_of, text_of

# Each word, with shares as they are written.
ALL = """# a bad line
delay 400 600   # milliseconds, each way
lose 2
repeat 1
hold 0.5 30000
close 0.1
refuse 10 60000
keep 50 0 500
restart 0.01
late 1.5 200 800
cut 0.6
behead 1.5
echo 1.5
pieces 50 20
alter 0.2
idle 60000
kill 1
"""
LINE = b"%R1P,0,3:0,123456\r\n"
SHARES = {"lose": 2, "repeat": 1, "hold": 0.5, "keep": 50, "restart": 0.01, "cut": 0.6, "behead": 1.5, "pieces": 50}
REFUSED = [
    ("loose 2", "line 1: there is no word loose"),
    ("lose 2\n\n# well\nlose 3", "line 4: lose stands there already"),
    ("lose 2\nup lose 3", "line 2: lose stands there already"),
    ("lose", "line 1: behind lose stands P here"),
    ("lose 2 3", "line 1: behind lose stands P here"),
    ("lose 100.001", "line 1: 100.001 is not a share of a hundred, 0 to 100 with at most three places"),
    ("lose 2.0001", "line 1: 2.0001 is not a share of a hundred, 0 to 100 with at most three places"),
    ("lose -1", "line 1: -1 is not a share of a hundred, 0 to 100 with at most three places"),
    ("lose .5", "line 1: .5 is not a share of a hundred, 0 to 100 with at most three places"),
    ("delay 600 400", "line 1: 600 is above 400"),
    ("delay 0 86400001", "line 1: 86400001 is not milliseconds, 0 to 86400000"),
    ("hold 1 1.5", "line 1: 1.5 is not milliseconds, 0 to 86400000"),
    ("pieces 1 0", "line 1: 0 is not bytes, 1 to 512"),
    ("up", "line 1: behind up stands a word, or a line's number and a word"),
    ("up 0 lose", "line 1: 0 is not the number of a line, 1 to 4294967295"),
    ("up 1", "line 1: behind up 1 stands a word"),
    ("up 1 lose 2", "line 1: behind lose stands nothing here"),
    ("up 1 hold", "line 1: behind hold stands MS here"),
    ("up 1 lose\nup 1 lose", "line 2: lose stands there already"),
    ("up 1 late 5", "line 1: there is no word late for one line"),
    ("up 1 idle 5", "line 1: there is no word idle for one line"),
    ("reset 1", "line 1: there is no word reset"),
    ("up idle 5", "line 1: idle is of no direction"),
    ("down echo 5", "line 1: echo is of the lines up alone"),
    ("down 4 echo", "line 1: echo is of the lines up alone"),
    ("alter", "line 1: behind alter stands P here"),
    ("alter 100.001", "line 1: 100.001 is not a share of a hundred, 0 to 100 with at most three places"),
    ("alter 0.2\ndown alter 0.1", "line 2: alter stands there already"),
    ("down 4 alter", "line 1: behind alter stands CHANGES here"),
    ("down 4 alter 3- 5-", "line 1: behind alter stands CHANGES here"),
    *((f"down 4 alter {said}", f"line 1: {said.rsplit(',', 1)[-1]} is not BYTE=XX, BYTE- or BYTE+XX: BYTE 1 to 4096, XX two hexadecimal digits")
      for said in ["0-", "4097-", "5", "5=3", "5+333", "5-33", "5*33", "-", "5-,", "5-,x"]),
    ("down 4 alter 5=33,5-", "line 1: the bytes of 5=33,5- are in no order"),
    ("down 4 alter 5-,4-", "line 1: the bytes of 5-,4- are in no order"),
    ("down 4 alter 5-\ndown 4 alter 5-", "line 2: alter stands there already"),
    ("lose 2\r\n\tlose 3", "line 2: bytes that are no printable ASCII"),
    ("#" * 65537, "more than 65536 bytes"),
]


@pytest.mark.title("text, {number}: {why}")
@pytest.mark.parametrize("number, text, why", [(n, *one) for n, one in enumerate(REFUSED, 1)])
def test_refused(number, text, why):
    with pytest.raises(Faulty) as found:
        text_of(text.encode())
    assert str(found.value) == why, number


@pytest.mark.title("text, all words, at the ends of their ranges")
def test_read():
    text = text_of(ALL.encode())
    assert text.words["up"]["lose"] == text.words["down"]["lose"] == [2000]
    assert text.words["up"]["hold"] == [500, 30000] and text.whole == {"idle": 60000, "kill": 1}
    assert "echo" in text.words["up"] and "echo" not in text.words["down"]
    ends = "delay 0 86400000\r\nlose 100\nrepeat 0\ndown pieces 100 512\nup pieces 0.001 1\nup 4294967295 cut 512\n"
    ends += "up 1 reset\nup 1 refuse 0"
    text = text_of(ends.encode())
    assert text.fate(7, "up", 1, LINE) == {"reset": 0, "refuse": 0} and text.changes(7, "up", 1, LINE) == []
    assert text.words["down"]["pieces"] == [100_000, 512]
    assert text_of(b"").fate(1, "up", 1, LINE) == {}
    text = text_of(b"alter 100\ndown 4 alter 1-,2=0a,4096+Ff\ndown 4 repeat\ndown 5 repeat\n")
    assert text.fate(7, "down", 4, LINE) == {"alter": 0, "repeat": 0}
    assert text.changes(7, "down", 4, LINE) == [(1, "-", 0), (2, "=", 10), (4096, "+", 255)]
    assert text.changes(7, "down", 5, LINE) == []
    assert len(text.changes(7, "down", 6, LINE)) == len(text.changes(7, "up", 4, LINE)) == len(LINE)


@pytest.mark.title("text, what becomes of a line: {said}")
@pytest.mark.parametrize("said, line", [
    ("8=34", b"%R1P,0,4:0\r\n"), ("12-", b"%R1P,0,3:0\r"), ("11-,12-", b"%R1P,0,3:0"), ("1+0a", b"\n%R1P,0,3:0\r\n"), ("12+20", b"%R1P,0,3:0\r \n"),
    ("13+20,14-", b"%R1P,0,3:0\r\n"), (",".join(f"{at}-" for at in range(1, 13)), b""), ("1-,2+41,3=42", b"AR" b"BP,0,3:0\r\n"),
])
def test_altered(said, line):
    assert altered(b"%R1P,0,3:0\r\n", changes_of(said)) == line
    assert ",".join(map(str, changes_of(said))) == said


@pytest.mark.title("draws, the numbers of docs/BAD-LINES.md")
def test_draws():
    assert [mixed(n * GOLDEN) for n in (1, 2, 3)] == [0xE220A8397B1DCDAF, 0x6E789E6AA1B965F4, 0x06C45D188009454F], "splitmix64 from 0"
    assert [draw(7, "up", 1, place).bits for place in (1, 2, 3)] == [0xB8B4C2977EABCE45, 0xA65305FD338EC8FE, 0x8CA3CBB6CA63129B]
    assert draw(7, "down", 2, 1).bits == 0xC6CC8BD107A5183F
    assert draw(7, "up", 1, 3).among(400, 600) == 558
    assert draw(7, "down", 1, 15).bits == 0x24AB2F851025FA09
    assert [text_of(b"alter 2").changes(7, "down", line, LINE) for line in (1, 2, 3, 4)] == [changes_of("6=31"), [], changes_of("1-"), changes_of("14+83")]


@pytest.mark.title("draws, shares over 20,000 lines")
def test_shares(note):
    text, lines = text_of(ALL.encode()), 20_000
    told = []
    for way in ("up", "down"):
        fates = [text.fate(54, way, line, LINE) for line in range(1, lines + 1)]
        for word, share in SHARES.items():
            count, mean = sum(word in fate for fate in fates), lines * share / 100
            assert abs(count - mean) <= 5 * max(1, mean) ** 0.5, f"{word} {way}: {count}"
            told.append(count)
        assert {fate["delay"] for fate in fates} >= set(range(400, 601)), "each delay"
        assert all("refuse" not in fate or fate.keys() & {"close", "reset", "cut"} for fate in fates)
    note(f"lost {told[0]} and {told[len(SHARES)]}")


@pytest.mark.title("draws, a word more changes no other one")
def test_apart():
    few, more = text_of(b"lose 2\ndelay 0 9\n"), text_of(b"lose 2\ndelay 0 9\nrepeat 50\nhold 3 5\nclose 1\nalter 1\n")
    for line in range(1, 2000):
        one, other = few.fate(3, "down", line, LINE), more.fate(3, "down", line, LINE)
        assert one == {word: number for word, number in other.items() if word in ("lose", "delay")}


@pytest.mark.title("what was decided is decided again by its text")
def test_again():
    text = text_of(ALL.encode())
    fates = {(way, line): (text.fate(9, way, line, LINE), text.changes(9, way, line, LINE)) for way in ("up", "down") for line in range(1, 800)}
    again = text_of("".join(lines_of(*place, *fate, "  # how") for place, fate in fates.items()).encode())
    assert all((again.fate(0, *place, LINE), again.changes(0, *place, LINE)) == fate for place, fate in fates.items())


@pytest.mark.title("draws, bytes that are altered, over 20,000 lines")
def test_altered_bytes(note):
    """Each byte by itself, those of the line's end too; a third of them is changed in one bit, a third is lost, a third comes besides."""
    text, lines = text_of(b"alter 0.2"), 20_000
    drawn = [change for line in range(1, lines + 1) for change in text.changes(7, "down", line, LINE)]
    kinds, places = Counter(change.kind for change in drawn), Counter(change.at for change in drawn)
    mean = lines * len(LINE) / 500
    assert abs(len(drawn) - mean) <= 5 * mean**0.5 and all(abs(kinds[kind] - mean / 3) <= 5 * (mean / 3) ** 0.5 for kind in "=-+"), kinds
    assert set(places) == set(range(1, len(LINE) + 1)) and all(abs(count - lines / 500) <= 6 * (lines / 500) ** 0.5 for count in places.values())
    assert all((change.byte ^ LINE[change.at - 1]).bit_count() == 1 for change in drawn if change.kind == "=")
    assert len({change.byte for change in drawn if change.kind == "+"}) > 120
    note(f"of {lines * len(LINE)} bytes {len(drawn)}: {dict(kinds)}")
