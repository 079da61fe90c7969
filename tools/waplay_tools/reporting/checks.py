"""Results of checks as test suites read them: JUnit XML, and the Test Anything Protocol."""

import dataclasses
import importlib
import types
from collections.abc import Sequence

from waplay_tools.reporting.text import BadInput, visible


@dataclasses.dataclass
class Check:
    """Something that was checked: its name, and in one sentence what is wrong with it, which is
    empty where nothing is; and how many seconds it took."""

    name: str
    wrong: str = ""
    seconds: float = 0.0


def tap(checks: Sequence[Check]) -> str:
    """The checks as lines of TAP, version 13."""
    lines = ["TAP version 13", f"1..{len(checks)}"]
    for number, check in enumerate(checks, 1):
        name = visible(check.name).replace("#", "\\#")
        lines.append(f"{'not ok' if check.wrong else 'ok'} {number} - {name}")
        if check.wrong:
            lines.append(f"# {visible(check.wrong)}")
    return "\n".join(lines) + "\n"


def junit_module() -> types.ModuleType:
    """The module junitparser. It raises BadInput where that is not installed."""
    try:
        return importlib.import_module("junitparser")
    except ImportError:
        raise BadInput("JUnit XML wants the module junitparser, of the package"
                       " python3-junitparser") from None


def junit(suite: str, checks: Sequence[Check]) -> str:
    """The checks as JUnit XML, one suite of this name. It wants the module junitparser."""
    junitparser = junit_module()
    made = junitparser.TestSuite(visible(suite))
    for check in checks:
        case = junitparser.TestCase(visible(check.name), visible(suite), check.seconds)
        if check.wrong:
            case.result = [junitparser.Failure(visible(check.wrong))]
        made.add_testcase(case)
    xml = junitparser.JUnitXml()
    xml.add_testsuite(made)
    text: bytes = xml.tostring()
    return text.decode()
