"""Runs the parts of the gate one after the other, each a target of the Makefile, and adds up what they counted.

A part that counts nothing is one check, and so is a part that fails with nothing counted as failed. The last line is
'N passed, M failed', and the exit status is 0 where M is 0.
"""

import re
import subprocess
import sys
import time

TALLY = re.compile(r"(\d+) passed, (\d+) failed")  # rt ci, and the scripts beside this one
CARGO = re.compile(r"test result: \w+\. (\d+) passed; (\d+) failed;.*")
# rt ci passes with a must-fail edit that stands on nothing, and so shows nothing: 'bad' on its line. The gate does not.
BAD_EDITS = re.compile(r"rt: ok\b.*, (\d+) bad\b.*")
# A comparison counts its inputs, by the thousand: here it is one check, beside which the others are still seen.
COMPARISON = re.compile(r"differential: \d+ passed, (\d+) failed|record: \d+ answers .*")


def counted(line):
    """How many checks a line of output says have passed, and how many have failed."""
    line = line.rstrip()
    found = TALLY.fullmatch(line) or CARGO.fullmatch(line)
    if found:
        return int(found[1]), int(found[2])
    found = BAD_EDITS.fullmatch(line)
    if found:
        return 0, int(found[1])
    found = COMPARISON.fullmatch(line)
    if found:
        return (1, 0) if int(found[1] or 0) == 0 else (0, 1)
    return 0, 0


def run(part, folder):
    """Runs a part, shows what it writes, and gives how many checks passed and failed."""
    passed = failed = 0
    command = ["make", "--no-print-directory", "-C", folder, part]
    with subprocess.Popen(command, stdout=subprocess.PIPE, stderr=subprocess.STDOUT, text=True) as process:
        for line in process.stdout:
            print(line, end="", flush=True)
            more_passed, more_failed = counted(line)
            passed += more_passed
            failed += more_failed
    if process.returncode != 0:
        failed = max(failed, 1)
    elif passed + failed == 0:
        passed = 1
    return passed, failed


def main(parts, folder="."):
    table = []
    for part in parts:
        print(f"==== {part}", flush=True)
        began = time.monotonic()
        passed, failed = run(part, folder)
        table.append((part, passed, failed, time.monotonic() - began))

    print("==== all parts")
    for part, passed, failed, seconds in table:
        print(f"{part:<10} {passed:>5} passed {failed:>5} failed {seconds:>7.0f} s")
    passed = sum(row[1] for row in table)
    failed = sum(row[2] for row in table)
    print(f"{sum(row[3] for row in table):.0f} s")
    print(f"{passed} passed, {failed} failed")
    return 0 if passed > 0 and failed == 0 else 1


if __name__ == "__main__":
    sys.exit(main(sys.argv[1:]))
