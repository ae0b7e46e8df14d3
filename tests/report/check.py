#!/usr/bin/env python3
"""The tests of the report: check.py LIBRARY PAIR_LISTER [--write].

LIBRARY is the shared library and PAIR_LISTER the lister, built for this machine. Samplers' files are compared with their
expected folders, and the README's example with what the README says of it; random samples are read in every dialect, and
small files with slips; every refusal is asked for its words, a report is changed by a byte and verified, and the unit tests
beside this file are run. `--write` writes the
expected folders anew instead: the tables by the independent program, the digests of pictures by the report itself.
"""
import argparse
import os
import sys
import time
import traceback
import unittest

HERE = os.path.dirname(os.path.abspath(__file__))
REPOSITORY = os.path.dirname(os.path.dirname(HERE))


def unit_tests():
    """The test files beside this one, each test a check."""
    result = unittest.TestResult()
    suite = unittest.defaultTestLoader.discover(HERE, top_level_dir=HERE)
    suite.run(result)
    for test, words in result.failures + result.errors:
        yield str(test), words
    for test in result.unexpectedSuccesses:
        yield str(test), "was expected to fail"
    for _ in range(result.testsRun - len(result.failures) - len(result.errors) - len(result.unexpectedSuccesses)):
        yield "unit test", ""


def all_checks(lister):
    import damage
    import dialects
    import folders
    import readme
    import refusals
    import verify
    from norbelath_report import errors, reading

    yield "samplers' files", folders.checks(lister)
    yield "the README", readme.checks()
    yield "dialects", dialects.checks(reading.read)
    yield "damaged files", damage.checks(reading.read, errors.Refused)
    yield "refusals", refusals.checks()
    yield "verify", verify.checks()
    yield "unit tests", unit_tests()


def whole(checks):
    """The checks of a part. An exception in them is a failure, and the other parts go on."""
    try:
        yield from checks
    except Exception:
        yield "stopped", traceback.format_exc()


def main(arguments):
    parser = argparse.ArgumentParser(description=__doc__, formatter_class=argparse.RawDescriptionHelpFormatter)
    parser.add_argument("library")
    parser.add_argument("lister")
    parser.add_argument("--write", action="store_true")
    options = parser.parse_args(arguments)
    paths = [os.path.join(REPOSITORY, "report"), os.path.join(REPOSITORY, "bindings", "python")]
    sys.path[:0] = paths
    os.environ.update(NORBELATH_LIBRARY=os.path.abspath(options.library), PYTHONPATH=os.pathsep.join(paths),
                      PYTHONDONTWRITEBYTECODE="1")
    sys.dont_write_bytecode = True
    if options.write:
        import folders

        folders.write()
        return 0
    done = failed = 0
    for part, checks in all_checks(os.path.abspath(options.lister)):
        start, before = time.monotonic(), done
        for name, problem in whole(checks):
            done += 1
            if problem:
                failed += 1
                print(f"report: {part}: {name}: {problem}")
        print(f"report: {part}: {done - before} checks, {time.monotonic() - start:.1f} s", flush=True)
    print(f"report: {done} checks, {failed} failed" if failed else f"report: {done} checks")
    return 1 if failed else 0


if __name__ == "__main__":
    sys.exit(main(sys.argv[1:]))
