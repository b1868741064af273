"""A plugin for pytest that strips what tests print: in its reports, and in the JUnit file of `--junitxml`, stands plain text, whatever a
program under test writes to the terminal.

    pytest -p plain_reports
"""
from typing import List, Protocol, Tuple

from csicodec import strip


class Report(Protocol):
    """What this plugin changes of pytest's TestReport: captured output, as pairs of a heading and a text."""

    sections: List[Tuple[str, str]]


class Plugins(Protocol):
    def register(self, plugin: object) -> object: ...


class Config(Protocol):
    pluginmanager: Plugins


class Session(Protocol):
    config: Config


class PlainReports:
    def pytest_runtest_logreport(self, report: Report) -> None:
        report.sections = [(heading, strip(text)) for heading, text in report.sections]


def pytest_sessionstart(session: Session) -> None:
    """What is registered last is called first: before the terminal and the file take what a report has."""
    session.config.pluginmanager.register(PlainReports())
