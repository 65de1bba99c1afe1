"""What the trials of followers share: a PostgreSQL and a broker of their own, and how often a follower is killed."""

import tempfile

import pytest

from servers import Servers, missing_package


@pytest.fixture(scope="session")
def servers():
    package = missing_package()
    if package:
        pytest.exit(f"Debian's package {package} is missing", returncode=pytest.ExitCode.INTERRUPTED)
    with tempfile.TemporaryDirectory() as folder, Servers(folder) as servers:
        yield servers


@pytest.fixture
def kills(pytestconfig):
    return pytestconfig.option.kills or 50
