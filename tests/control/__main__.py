"""Tests of the control program, its examples and the build: python3 tests/control [BUILD_DIR [WORD]]

With a WORD, only tests whose names contain it are run. Each test has a folder of its own, and names no target outside it but in /proc,
where nothing can be replaced: run by root, a faulty program could else replace the machine's own /dev/null. A failed test prints a line,
and so does one that can't run here and is skipped. The last line is 'N passed, M failed', and the exit status is 0 only if none has failed.
"""

import os
import shutil
import sys
import tempfile
import traceback

# The modules stand in the repository, and no __pycache__ is to be left there.
sys.dont_write_bytecode = True

from desk import PROGRAM, TESTS, Desk, Failure, Skipped

# Each puts its tests on the list, in this order.
import command_line
import report
import reading
import writing
import targets
import picture
import index
import examples
import documents
import build


def main():
    word = sys.argv[2] if len(sys.argv) > 2 else ""
    chosen = [function for function in TESTS if word in function.__name__]
    trouble = None
    if not os.access(PROGRAM, os.X_OK):
        trouble = f"{PROGRAM} is not there"
    elif not chosen:
        trouble = f"no test has {word} in its name"
    if trouble:
        print(trouble)
        print("0 passed, 1 failed")
        return 1
    # so that what others may do with the tests' files is the same everywhere
    os.umask(0o022)
    passed = failed = skipped = 0
    for function in chosen:
        folder = tempfile.mkdtemp(prefix="tekoweapa-test-")
        desk = Desk(folder)
        try:
            function(desk)
            passed += 1
        except Failure as failure:
            failed += 1
            print(f"FAILED {function.__name__}: {failure}")
        except Skipped as why:
            skipped += 1
            print(f"SKIPPED {function.__name__}: {why}")
        except Exception:
            failed += 1
            print(f"FAILED {function.__name__}: {traceback.format_exc()}")
        finally:
            desk.close()
            shutil.rmtree(folder, ignore_errors=True)
    if skipped:
        print(f"{skipped} skipped")
    print(f"{passed} passed, {failed} failed")
    return 0 if failed == 0 else 1


if __name__ == "__main__":
    sys.exit(main())
