"""What all trials share: the options of the commands, the program that is tried, and the line that each trial gets."""

import os
import tempfile
from pathlib import Path

import pytest

# The modules beside the trials that have assertions of their own.
pytest.register_assert_rewrite("asking", "measuring", "programs", "watched", "stations", "sinks", "killing", "lines", "judge", "held", "stopped", "devices", "pointing", "lining", "judging", "dates")


def pytest_addoption(parser):
    options = parser.getgroup("geocom")
    options.addoption("--program", help="the program geocom")
    options.addoption("--words", default="", help="make those trials alone whose titles have these words")
    options.addoption("--kills", type=int, help="how often a station (500) or a follower (50) is killed")
    options.addoption("--cycles", type=int, default=2000, help="how many cycles are measured over bad lines (2000)")
    options.addoption("--runs", type=int, default=2000, help="how many runs of a station are killed over one line (2000)")
    options.addoption("--sites", type=int, default=20, help="how many random sites are tried (20)")
    options.addoption("--first", type=int, default=1, help="the seed of the first one (1)")
    options.addoption("--device-cycles", type=int, default=100, help="how many cycles are measured over a device that goes away (100)")


@pytest.fixture(scope="session")
def program(pytestconfig):
    """The path of the program."""
    path = pytestconfig.option.program
    if not path:
        pytest.skip("no program was named")
    return os.path.abspath(path)


@pytest.fixture
def folder():
    """A folder of the trial's own."""
    with tempfile.TemporaryDirectory() as path:
        yield Path(path)


@pytest.fixture
def note(record_property):
    """Takes a figure, which is in the line of the trial."""
    return lambda text: record_property("note", text)


def title_of(item):
    marker = item.get_closest_marker("title")
    if not marker:
        return item.name.removeprefix("test_")
    return marker.args[0].format(**(item.callspec.params if hasattr(item, "callspec") else {}))


def pytest_collection_modifyitems(config, items):
    chosen, others = [], []
    for item in items:
        title = title_of(item)
        item.user_properties.append(("title", title))
        (chosen if config.option.words in title else others).append(item)
    items[:] = chosen
    config.hook.pytest_deselected(items=others)


class Lines:
    """Prints a line for each trial, and how many failed as the last one."""

    def __init__(self, config):
        self.config, self.is_done = config, False
        self.outcomes, self.seconds, self.counts = [], 0, {"failed": 0, "skipped": 0, "passed": 0}

    def write(self, line):
        self.config.get_terminal_writer().line(line, flush=True)

    def pytest_runtest_logreport(self, report):
        self.outcomes.append(report.outcome)
        self.seconds += report.duration
        if report.when == "teardown":
            outcome = next(kind for kind in self.counts if kind in self.outcomes)
            self.counts[outcome] += 1
            properties = [text for name, text in report.user_properties if name == "note"]
            title = dict(report.user_properties)["title"]
            word = {"failed": "FAILED", "skipped": "not tried:", "passed": "ok"}[outcome]
            notes = ": " + "; ".join(properties) if properties else ""
            self.write(f"{word} {title}{notes} ({self.seconds:.0f} s)")
            self.outcomes, self.seconds = [], 0

    @pytest.hookimpl(hookwrapper=True)
    def pytest_report_teststatus(self):
        """No letter for a trial, since it has a line."""
        status = yield
        category, _, word = status.get_result()
        status.force_result((category, "", word))

    def pytest_sessionfinish(self, exitstatus):
        self.is_done = exitstatus in (pytest.ExitCode.OK, pytest.ExitCode.TESTS_FAILED)

    def pytest_unconfigure(self):
        if self.is_done:
            missing = f", {self.counts['skipped']} not tried" if self.counts["skipped"] else ""
            self.write(f"{self.counts['failed']} of {sum(self.counts.values())} trials failed{missing}")


def pytest_configure(config):
    config.pluginmanager.register(Lines(config))
