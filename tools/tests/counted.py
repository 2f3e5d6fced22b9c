"""Runs the tests of the tools, and closes with a line of counts: `tools: N passed, N failed`, and what was skipped."""
import os
import sys
import unittest

HERE = os.path.dirname(os.path.abspath(__file__))
suite = unittest.TestLoader().discover(HERE, top_level_dir=HERE)
result = unittest.TextTestRunner(stream=sys.stdout, verbosity=1).run(suite)
failed = len(result.failures) + len(result.errors)
for test, reason in result.skipped:
    print(f"skipped: {test}: {reason}")
print(f"tools: {result.testsRun - failed - len(result.skipped)} passed, {failed} failed")
sys.exit(1 if failed else 0)
