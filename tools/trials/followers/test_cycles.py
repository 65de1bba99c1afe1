"""What the broker has of cycles and of the follower: a message for each cycle that is over, and a state with a last will."""

import json
import time

from programs import Run, until
from records import HEAD, line_of
from servers import Listening
from sinks import level, messages_of, tool
from test_silence import GOOD, REFUSED, fields, now


def row(cycle, target, answer=GOOD, **more):
    return line_of(fields(cycle, target, now(), answer, name=f"pier {target}", **more))


def kept(port, topic):
    """What is retained there."""
    with Listening(port, [topic]) as listening:
        time.sleep(0.2)
    return [text.decode() for _, text in listening.came]


def cycle_of(port, top):
    found = kept(port, f"{top}/cycle")
    return json.loads(found[-1]) if found else None


def test_a_message_for_each_cycle(servers, folder):
    """Once it is over, with the targets that were measured in some row and those that weren't; over a kill of the follower in the midst of
    it nothing is missing from its count. Rows of the setup end no cycle."""
    port, path, top = servers.broker_port, folder / "north.csv", "cycles"
    command = tool("to-mqtt", path, top, "--port", port)
    path.write_bytes(HEAD + row(1, 7) + row(1, 8, REFUSED) + row(1, 9, ("21.0", "ok", 0), procedure=5011))
    messages_of([*command, "--once"])
    assert cycle_of(port, top) is None and not kept(port, f"{top}/state/#")
    with Listening(port, [f"{top}/cycle"]) as listening:
        with open(path, "ab") as file:
            file.write(row(1, 7, REFUSED) + row(0, 7) + row(1, 8, attempt=2))
        messages_of([*command, "--once"])
        with open(path, "ab") as file:
            file.write(row(2, 7, REFUSED) + row(2, 8, REFUSED) + row(3, 7, ("", "", ""), outcome="missed") + row(4, 7))
        messages_of([*command, "--once"])
        until(lambda: len(listening.came) == 3, "no message of a cycle")
        found = [json.loads(text) for _, text in listening.came]
    assert [(one["cycle"], one["rows"], one["good"], one["measured"], one["unmeasured"]) for one in found] == [
        (1, 5, 3, ["pier 7", "pier 8"], []), (2, 2, 0, [], ["pier 7", "pier 8"]), (3, 1, 0, [], ["pier 7"])]
    assert list(found[0]) == ["run", "cycle", "begun", "time", "rows", "good", "measured", "unmeasured"] and found[0]["begun"] <= found[0]["time"]
    assert cycle_of(port, top) == found[2]


def test_a_folder_has_a_message_for_each_station(servers, folder):
    for name in "north", "süd+1":
        (folder / f"{name}.csv").write_bytes(HEAD + row(1, 7) + row(2, 7))
    messages_of(tool("to-mqtt", folder, "both", "--port", servers.broker_port, "--once"))
    for name in "north", "süd%2B1":
        assert cycle_of(servers.broker_port, f"both/{name}")["cycle"] == 1


def test_the_state_of_a_follower(servers, folder):
    """`online` while it follows, also a file that isn't there; `offline` after its end, and by its last will after a kill."""
    port, path, top = servers.broker_port, folder / "a+b.csv", "state"
    topic = f"{top}/state/{level(str(path))}"
    command = tool("to-mqtt", path, top, "--port", port, "--rest", "0.1")
    with Run(command) as run:
        until(lambda: kept(port, topic) == ["online"], "it isn't online")
        run.kill()
        until(lambda: kept(port, topic) == ["offline"], "no last will")
    with Run(command) as run:
        until(lambda: kept(port, topic) == ["online"], "it isn't online again")
        run.terminate()
        until(lambda: kept(port, topic) == ["offline"], "no last will")
    path.write_bytes(b"a,b\n")
    messages_of(command, 1)
    assert kept(port, topic) == ["offline"]


def test_a_kept_cycle_of_somebody_else(servers, folder):
    """What another program wrote there is refused in one line."""
    path = folder / "values.csv"
    path.write_bytes(HEAD + row(1, 7))
    for number, cycle in enumerate(["x", 1, {}, {"run": 1}]):
        place = json.dumps({"bytes": 0, "rows": 0, "sha256": "", "cycle": cycle})
        with Listening(servers.broker_port, ["nothing"]) as other:
            other.client.publish(f"else{number}/followed/{level(str(path))}", place, qos=1, retain=True).wait_for_publish(5)
        messages = messages_of(tool("to-mqtt", path, f"else{number}", "--port", servers.broker_port, "--once"), 1)
        assert "says of no file" in messages and messages.count("\n") == 1
