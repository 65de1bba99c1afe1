"""A station over a line that alters one byte in ten thousand, with PPP on it, as docs/FIRST-CYCLE.md has it, "A line that loses bytes"."""

import os
import shutil
from pathlib import Path

import pytest

from measuring import counts_of, rows_of
from programs import ended

# Each command with the values that the simulator has for it.
CALLS = {"5003": "123456", "5004": '"GEOCOM SIM"', "2011": "0.0", "5011": "21.0", "110": "1,0,0", "2026": "0"}
WANTED = ["unshare", "linux.uml", "pppd", "socat", "insmod", "ip"]
SCRIPT = Path(__file__).with_name("ppp.sh")


@pytest.mark.title("PPP over a line that alters one byte in ten thousand")
def test_ppp(program, pytestconfig, folder, note):
    """No row is false, and all are answered."""
    for one in WANTED:
        if not shutil.which(one, path=f"{os.environ['PATH']}:/usr/sbin:/sbin"):
            pytest.skip(f"there is no {one}")
    if not os.access("/dev/net/tun", os.W_OK):
        pytest.skip("/dev/net/tun can't be opened")
    # A cycle takes a quarter of a second.
    cycles = max(1, pytestconfig.option.cycles // 4)
    (folder / "commands").write_text("unchained\n" + "".join(f"{target} {rpc}\n" for target, rpc in enumerate(CALLS, 1)))
    words = [SCRIPT, program, folder, 10, 3, "--cycles", cycles, "--retries", "always"]
    path = f"{os.environ['PATH']}:/usr/sbin:/sbin"
    found = ended(["unshare", "--user", "--map-root-user", "--net", *words], patience=120 + cycles, env={**os.environ, "PATH": path})
    assert found.status == 0, found.messages
    rows = rows_of((folder / "rows").read_bytes())
    note(f"{counts_of(rows)}; line: {(folder / 'altered').read_text().strip()}")
    assert len(rows) == cycles * len(CALLS)
    false = [row for row in rows if row["outcome"] == "answered" and row["values"] != CALLS[row["procedure"]]]
    assert not false, false[:3]
    assert {row["outcome"] for row in rows} == {"answered"}
