"""Runs the tests of a script by unittest, and counts them: for python/test and install/test."""
import unittest


class Counted(unittest.TextTestResult):
    """testsRun counts skipped tests in some versions of Python, and not in others."""
    passed = 0

    def addSuccess(self, test):
        super().addSuccess(test)
        self.passed += 1


def run(words):
    """How many tests passed, failed and were skipped; words are those of the command line."""
    result = unittest.main(argv=words, exit=False, testRunner=unittest.TextTestRunner(resultclass=Counted)).result
    return result.passed, len(result.failures) + len(result.errors), len(result.skipped)


def tell(passed, failed, skipped):
    """Prints the last line; the status of the script."""
    print(f"{passed} passed, {failed} failed" + (f", {skipped} skipped" if skipped else ""))
    return 1 if failed else 0
