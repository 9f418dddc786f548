#!/usr/bin/env python3
"""Counts which allocations the tests of refused memory refuse, and which they skip.

    bench/growths.py TESTS

TESTS is the program of the tests as `rt test` in `crates/regatta` builds it, `out/regatta_tests`. Each
test of `tests::memory` runs with a preloaded library that counts requests (growths.c, built with the
machine's C compiler). For each call that the test refuses, in its order, these are printed:

- how many requests for memory the call makes if none is refused;
- how many runs were refused;
- how many of the requests were the first refused of some run;
- for how many others the call had memory anyway;
- the number and size of each request that was skipped.

The script ends with status 1 if a test fails, or if a run was refused a request and answered as with
ample memory. It also does if a test refused no call, except the test of serving, which has a loop of
its own.
"""
import os
import subprocess
import sys
import tempfile

from compiled import compiled


def main():
    if len(sys.argv) != 2:
        sys.exit(__doc__)
    program = os.path.abspath(sys.argv[1])
    listed = subprocess.run([program, "--list"], capture_output=True, text=True, check=True).stdout
    names = [line.split(": ")[0] for line in listed.splitlines() if "::memory::" in line]
    failed = calls = 0
    with tempfile.TemporaryDirectory() as folder:
        env = {"LD_PRELOAD": compiled(folder, "growths.c", "-shared", "-fPIC")}
        for name in names:
            run = subprocess.run([program, name], env=env, capture_output=True, text=True, timeout=600)
            print(f"{name}: {'passed' if run.returncode == 0 else 'FAILED'}")
            failed += run.returncode != 0
            told = [line for line in run.stderr.splitlines() if line.startswith("growths: ")]
            for line in told:
                print("    " + line.removeprefix("growths: "))
                failed += "answered behind a refusal" in line
            if not told and not name.endswith("::serving_runs_out_of_memory"):
                print("    refused no call: FAILED")
                failed += 1
            calls += len(told)
    print(f"{calls} calls, {len(names)} tests, {failed} failed")
    return 1 if failed else 0


if __name__ == "__main__":
    sys.exit(main())
