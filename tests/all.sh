#!/usr/bin/env bash
# Tries a built program over the stored runs, the pages (their links, the statement), the types of the
# package, and the package over the program; and the program of corrected times, which is
# crates/times/out/times if TIMES names no other.
#   tests/all.sh PROGRAM
# What can't be tried here is named in a line `not tried: ..` and counts as neither. The last line is
# `N passed, M failed`, and the status is 1 if anything failed.
set -uo pipefail
program=$(realpath "${1:?tests/all.sh PROGRAM}")
here=$(dirname "$(realpath "$0")")
room=$(mktemp -d)
trap 'rm -rf "$room"' EXIT
unset PYTHONDONTWRITEBYTECODE
export PYTHONPYCACHEPREFIX=$room/compiled
export TIMES=${TIMES:-$here/../crates/times/out/times}
passed=0 failed=0

# Counts a part that passes or fails as a whole: part NAME COMMAND...
part() {
    local name=$1 printed
    shift
    if printed=$("$@" 2>&1); then
        passed=$((passed + 1))
    else
        printf '%s\nfailed: %s\n' "$printed" "$name"
        failed=$((failed + 1))
    fi
}

# The same if a program that it needs is there: part_with PROGRAM NAME COMMAND...
part_with() {
    if command -v "$1" > /dev/null; then
        part "${@:2}"
    else
        echo "not tried: $2: there is no $1 here"
    fi
}

part 'the stored runs of examples/' "$here/../examples/check.sh" "$program"
part 'the links of the pages' "$here/../bench/links.py"
part 'docs/STATEMENT.md as its script makes it' "$here/../bench/statement.py" --check
part_with "$TIMES" 'corrected times beside exact fractions' "$here/times_exact.py" "$TIMES"
MYPYPATH="$here/..:$here:$here/slow:$here/../bench" part_with mypy 'the types of raceoffice/, packaging/ and tests/' \
    mypy --strict --python-version 3.10 --cache-dir "$room/types" --explicit-package-bases --follow-imports silent \
    "$here/../raceoffice" "$here/../packaging" "$here"/*.py "$here"/slow/*.py
part_with pyflakes3 'the names of raceoffice/, packaging/ and tests/' \
    pyflakes3 "$here/../raceoffice" "$here/../packaging" "$here"
"$here/run.py" "$program" 2>&1 | tee "$room/printed"
status=${PIPESTATUS[0]} wrong=1
if [[ $(tail -n 1 "$room/printed") =~ ^([0-9]+)\ passed,\ ([0-9]+)\ failed$ ]]; then
    passed=$((passed + BASH_REMATCH[1]))
    wrong=${BASH_REMATCH[2]}
    if ((status != 0 && wrong == 0)); then
        wrong=1
    fi
fi
failed=$((failed + wrong))
echo "$passed passed, $failed failed"
((failed == 0))
