"""Scenes of a simulated instrument: what a file gives it, and what is refused."""

import os

import pytest

from asking import REPLY, REQUEST, ask
from measuring import finished, measuring
from programs import Run, connect, ended, free_port, simulator

SCENE = b"# the east pillar\nserial 71\nname EAST\ntarget 0.25 1.5 12.5\ntarget 4.0 1.5 48.25\n"
SCENE_REPLIES = b'%R1P,0,1:0,71\r\n%R1P,0,2:0,"EAST"\r\n%R1P,0,3:0\r\n%R1P,0,4:0,0.25,1.5,12.5,2\r\n'
SCENE_REQUESTS = b"%R1Q,5003,1:\r\n%R1Q,5004,2:\r\n%R1Q,9027,3:0.25,1.5,0,1,0\r\n%R1Q,17017,4:2\r\n"
SCENE_COMMANDS = b"7 5003\n7 5004\n7 9027 0.25,1.5,0,1,0\n7 17017 2\n"
# Scenes that are refused, with what is reported.
FAULTY = [
    (b"target 0.25 1.5\n", "geocom: fault 51 line 1\ngeocom: line 1 of the scene: the form is target HZ V DISTANCE\n"),
    (b"serial 1\n\nnames EAST\n", "geocom: fault 51 line 3\ngeocom: line 3 of the scene: no line of a scene begins so\n"),
    (b"target 0.25 1.5 12.5\n" * 33, "geocom: fault 41\n"),
    (b"#" * 65537, "geocom: fault 53\n"),
]


@pytest.fixture
def scene(folder):
    """The path of a scene."""
    path = folder / "scene"
    path.write_bytes(SCENE)
    return path


@pytest.mark.title("--scene of exec, drill and loop")
def test_exec_drill_and_loop(program, scene):
    """`exec`, `drill` and `loop` have the scene's instrument, and no other targets."""
    assert ended([program, "exec", "--scene", scene], SCENE_REQUESTS) == (0, SCENE_REPLIES, ""), "exec"
    elsewhere = b"%R1Q,9027,1:0.5,1.5,0,1,0\r\n%R1Q,17017,2:2\r\n"
    nothing = b"%R1P,0,1:0\r\n%R1P,0,2:1285\r\n"
    assert ended([program, "exec", "--scene", scene], elsewhere) == (0, nothing, ""), "exec elsewhere"
    schedule = b"send 7 10 5003\nup deliver\ndown deliver\nsend 7 10 5004\nup deliver\ndown deliver\n"
    settled = b'0 7 answered %R1P,0,0:0,71\n1 7 answered %R1P,0,1:0,"EAST"\n'
    assert ended([program, "drill", "--scene", scene], schedule) == (0, settled, ""), "drill"
    status, output, messages = ended([program, "loop", "--scene", scene], SCENE_COMMANDS)
    assert (status, messages) == (0, ""), "status and messages of loop"
    replies = [line.split(b" ", 3)[3].split(b":")[1] for line in output.splitlines()]
    assert replies == [b"0,71", b'0,"EAST"', b"0", b"0,0.25,1.5,12.5,2"], "loop"


@pytest.mark.title("--scene of {command}")
@pytest.mark.parametrize("command", ["serve", "serve --keep"])
def test_serve(program, scene, command):
    """A connection to `serve` gets the scene's instrument; the file may be gone by then."""
    command, *words = command.split()
    port = free_port()
    with Run([program, command, port, "--scene", scene, *words]), connect(port) as caller:
        scene.unlink()
        for request, reply in zip(SCENE_REQUESTS.splitlines(True), SCENE_REPLIES.splitlines(True)):
            ask(caller, request, reply)
    port = free_port()
    with Run([program, command, port, *words]), connect(port) as caller:
        ask(caller, REQUEST, REPLY)


@pytest.mark.title("--scene, and a station")
def test_station(program, scene):
    """A station over a port with a scene has its values in its rows."""
    with simulator(program, "--scene", scene, "--keep") as port:
        with measuring(program, port, "--settle 100 --deadline 100", SCENE_COMMANDS) as run:
            rows, _ = finished(run)
            assert [row["values"] for row in rows] == ["71", '"EAST"', "", "0.25,1.5,12.5,2"], "the values"


@pytest.mark.title("--scene, faulty")
def test_faulty_scene(program, scene):
    """Before anything else is done a scene is refused: nothing is written, and no port is bound."""
    for content, message in FAULTY:
        scene.write_bytes(content)
        expect_refused(program, scene, message)
    expect_refused(program, "/nowhere/scene", "geocom: fault 42\n")


def expect_refused(program, scene, message):
    for words in ["exec"], ["drill"], ["loop"], ["serve", free_port()], ["serve", free_port(), "--keep"]:
        found = ended([program, *words, "--scene", scene], SCENE_COMMANDS)
        behind = f"geocom: of the scene in {scene}\n" if words[0] in ("loop", "serve") else ""
        if behind and not os.path.exists(scene):
            behind += f"geocom: {scene}: No such file or directory (os error 2)\n"
        assert found == (1, b"", message + behind), words
