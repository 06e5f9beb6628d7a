"""Prints the counts of a report that pytest has written for JUnit, as the scripts in tests/ print theirs.

    python3 tests/python/count_junit.py REPORT
"""

import sys
from xml.etree import ElementTree

suites = ElementTree.parse(sys.argv[1]).getroot().iter("testsuite")
counts = [{name: int(suite.get(name, 0)) for name in ("tests", "failures", "errors", "skipped")} for suite in suites]
failed = sum(each["failures"] + each["errors"] for each in counts)
skipped = sum(each["skipped"] for each in counts)
passed = sum(each["tests"] for each in counts) - failed - skipped
print(f"{passed} passed, {failed} failed, {skipped} skipped")
sys.exit(1 if failed or not passed + skipped else 0)
