"""How tests write a folder: in one process, without figures, workbook and report, which take most of the time of a run."""

from pitplan import Writing

PLAIN = Writing(figures=False, workbook=False, report=False, processes=1)
# For runs whose folder the test verifies itself: the same rules need not run twice.
UNVERIFIED = Writing(verifies=False, figures=False, workbook=False, report=False, processes=1)
# For tests of the report.
REPORTED = Writing(figures=False, workbook=False, processes=1)
UNVERIFIED_REPORT = Writing(verifies=False, figures=False, workbook=False, processes=1)
# For tests of the workbook.
WITH_WORKBOOK = Writing(verifies=False, figures=False, report=False, processes=1)
