"""Runs the tests of a script side by side, since most of their time is waiting."""
import multiprocessing
import signal
import sys
import unittest
from pathlib import Path

PROCESSES = 16


def each(suite):
    for part in suite:
        if isinstance(part, unittest.TestSuite):
            yield from each(part)
        else:
            yield part


def run(test):
    """What a test skipped and why, and how it failed."""
    result = unittest.TestResult()
    test.run(result)
    return [why for _, why in result.skipped], [f"{test}\n{text}" for test, text in result.errors + result.failures]


def main():
    """Runs all tests of the script, or those that its words name, and ends with status 1 where one fails."""
    # A script that is begun in the background is handed SIGINT ignored, and by `nohup` SIGHUP, and would hand that on to what
    # it tries to end by them.
    signal.signal(signal.SIGINT, signal.default_int_handler)
    signal.signal(signal.SIGHUP, signal.SIG_DFL)
    script = sys.modules["__main__"]
    loader = unittest.defaultTestLoader
    suite = loader.loadTestsFromNames(sys.argv[1:], script) if sys.argv[1:] else loader.loadTestsFromModule(script)
    # Not in threads: while one writes a program, a process that another one begins holds it open too, and it can't be run.
    with multiprocessing.get_context("fork").Pool(PROCESSES) as pool:
        results = pool.map(run, each(suite), chunksize=1)
    name = Path(sys.argv[0]).name
    for why in sorted({why for skipped, _ in results for why in skipped}):
        print(f"{name}: skipped: {why}")
    failed = [text for _, texts in results for text in texts]
    print(*failed, f"{name}: {len(results)} tests, {len(failed)} failed", sep="\n")
    sys.exit(bool(failed))
