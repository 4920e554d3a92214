"""Runs the unittest cases of a test program and ends with one line, `NAME: N tests, 0 failures`; a failure makes the exit status 1."""
import io
import sys
import unittest


def main(name):
    result = unittest.main(module="__main__", exit=False, testRunner=unittest.TextTestRunner(stream=io.StringIO())).result
    failed = result.failures + result.errors
    for test, trace in failed:
        print(f"{test}\n{trace}")
    for test, why in result.skipped:
        print(f"{name}: {test} was skipped: {why}")
    print(f"{name}: {result.testsRun} tests, {len(failed)} failures")
    sys.exit(1 if failed or not result.testsRun else 0)
