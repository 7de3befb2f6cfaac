"""Options and fixtures that the tests of the tree and of the program share.

Tests install nothing; `make packages` does.
"""
import os
import pathlib
import re
import tempfile

import pytest


def pytest_configure(config):
    """Accepts spaces in names after -k: `log and calling title` means `log and calling_title`."""
    separate = r"(?<!\band)(?<!\bor)(?<!\bnot) (?!and\b|or\b|not\b)"
    config.option.keyword = re.sub(separate, "_", config.option.keyword)


def pytest_sessionfinish(session):
    """Fails the run if more tests are skipped than MAY_SKIP allows."""
    reporter = session.config.pluginmanager.get_plugin("terminalreporter")
    skipped = len(reporter.stats.get("skipped", [])) if reporter else 0
    allowed = int(os.environ.get("MAY_SKIP", 0))
    if session.exitstatus == 0 and skipped > allowed:
        reporter.write_line(f"{skipped} skipped, and MAY_SKIP allows {allowed}")
        session.exitstatus = pytest.ExitCode.TESTS_FAILED


@pytest.fixture
def work():
    """A temporary folder, removed after the test."""
    with tempfile.TemporaryDirectory(prefix="dcmbox-") as folder:
        yield pathlib.Path(folder)
